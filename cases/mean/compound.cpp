// A compound assignment reads its place before the right side, and gives the new value (ECMA-372, 15; C++, 5.17).
using namespace System;
int main() {
    int x = 1;
    x += (x = 5);
    Console::WriteLine(x);
    x -= x++;
    Console::WriteLine(x);
    unsigned char c = 250;
    c += 10;
    Console::WriteLine(c);
    Console::WriteLine(c <<= 6);
    short s = -7;
    s /= 2;
    Console::WriteLine(s);
    s %= 2;
    Console::WriteLine(s);
    unsigned int u = 1;
    u -= 2;
    Console::WriteLine(u);
    Console::WriteLine(u >>= 31);
    int y = x = 3;
    Console::WriteLine(y + x);
    return 0;
}
