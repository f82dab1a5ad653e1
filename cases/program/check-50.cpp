void f() { }
int main() { int a = f(); return 0; }