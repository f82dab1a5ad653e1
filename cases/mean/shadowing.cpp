// A name is the innermost variable of that name; functions are those of the nearest namespace (ECMA-372, 10.4; C++, 3.3 and 3.4).
using namespace System;
int f() { return 1; }
namespace K {
    int k() { return 5; }
}
namespace N {
    int f() { return 2; }
    int g() { return f() * 10 + K::k(); }
    namespace M {
        int h() { return f(); }
    }
}
using namespace K;
int main() {
    int x = 1;
    {
        int x = 2;
        for (int x = 3; x < 4; x++) {
            int x = 9;
            Console::Write(x);
        }
        Console::Write(x);
    }
    Console::WriteLine(x);
    Console::WriteLine(N::g());
    Console::WriteLine(N::M::h());
    Console::WriteLine(f() + k());
    return 0;
}
