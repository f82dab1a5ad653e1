// Operands and arguments are evaluated from left to right, once, and only where they are needed (ECMA-372, 15).
using namespace System;
int f(int n) { Console::Write(n); return n; }
int g(int a, int b, int c) { Console::Write(' '); return a * 100 + b * 10 + c; }
int main() {
    Console::WriteLine(f(1) + f(2) * f(3));
    Console::WriteLine(g(f(1), f(2), f(3)));
    Console::WriteLine(f(0) && f(1) || f(2));
    Console::WriteLine(f(1) || f(2));
    Console::WriteLine(f(0) ? f(1) : f(2));
    f(4); f(5);
    Console::WriteLine(f(7) - f(6) < f(8));
    return 0;
}
