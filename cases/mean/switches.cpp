// Sections fall through, default may stand first, continue in a switch belongs to the loop around it (ECMA-372, 16; C++, 6.4.2).
using namespace System;
void f(int n) {
    switch (n) {
    default:
        Console::Write('d');
    case 1:
        Console::Write('1');
    case 2:
    case -3:
        Console::Write('2');
        break;
    case 0x10:
        Console::Write('h');
    }
    Console::WriteLine();
}
void g(unsigned char c) {
    switch (c) {
    case 255: Console::Write('m'); break;
    case 'a': Console::Write('a');
    }
    Console::WriteLine('.');
}
int main() {
    f(0);
    f(1);
    f(2);
    f(-3);
    f(16);
    g(255);
    g(97);
    g(0);
    for (int i = 0; i < 4; i++) {
        switch (i) {
        case 1: continue;
        case 2: break;
        default: Console::Write('-');
        }
        Console::Write(i);
    }
    Console::WriteLine();
    switch (7) { }
    return 0;
}
