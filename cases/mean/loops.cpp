// continue goes on with the step of a for and with the condition of a while or do; break ends the innermost (ECMA-372, 16; C++, 6.5 and 6.6).
using namespace System;
int main() {
    for (int i = 0; i < 6; i++) {
        if (i == 1) continue;
        if (i == 4) break;
        Console::Write(i);
    }
    Console::WriteLine();
    int n = 0;
    while (n < 5) {
        n++;
        if (n % 2 == 0) continue;
        Console::Write(n);
    }
    Console::WriteLine();
    do {
        n--;
        if (n == 3) continue;
        Console::Write(n);
    } while (n > 1);
    Console::WriteLine();
    for (int a = 0, b = 3; a < b; a++) {
        for (;;) {
            Console::Write(a);
            break;
        }
        Console::Write(b--);
    }
    Console::WriteLine();
    do Console::Write('x'); while (false);
    Console::WriteLine();
    return n;
}
