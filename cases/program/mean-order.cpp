int show(int n) { System::Console::WriteLine(n); return n; }
int main() { int a = show(1) + show(2) * show(3); return a - show(4); }
