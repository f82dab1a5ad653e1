void f(int a) { }
int main() { f(); return 0; }