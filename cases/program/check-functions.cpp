namespace N { int g(int a); int g(int a) { while (true) { if (a > 3) return a; a++; } } }
using namespace N;
int main() { bool b = g(1) == 4 && !(g(9) < 9); return b ? 0 : 1; }
