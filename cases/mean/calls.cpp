// The nearest conversion takes the call; arguments are values; a result is converted (ECMA-372, 14 and 15; C++, 13.3).
using namespace System;
void f(int a) { Console::WriteLine('i'); }
void f(long long a) { Console::WriteLine('l'); }
void f(bool a) { Console::WriteLine('b'); }
void f(int a, int b) { Console::WriteLine('2'); }
unsigned char narrow(int n) { return n; }
int change(int n) { n = n + 1; return n; }
int later(int n);
int main() {
    f('a');
    f(1ll);
    f(true);
    f((short)1);
    f(1, 2u);
    Console::WriteLine(narrow(511));
    int n = 4;
    Console::WriteLine(change(n) * 10 + n);
    Console::WriteLine(later(3));
    return 0;
}
int later(int n) { if (n == 0) return 0; return n + later(n - 1); }
