using namespace System;

int f(int n);

namespace Sums {
  long long sum(int n) {
    long long all = 0;
    for (int i = 1; i <= n; i++) all += i;
    return all;
  }
}

int f(int n) { return n == 0 ? 0 : f(n - 1); }

int main() {
  switch (f(3)) { case 0: Console::WriteLine(Sums::sum(4)); break; default: return 1; }
  return 0;
}
