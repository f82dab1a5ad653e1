using namespace System;
int main() {
  int a = 5; int b = a++ + a; Console::WriteLine(b);
  a = 2; a += (a = 3); Console::WriteLine(a);
  a = 1; b = ++a * a--; Console::WriteLine(b);
  return a;
}
