using namespace System;
int main() {
  int a = 1;
  { int a = 2; Console::WriteLine(a); a = 3; }
  for (int a = 7; a < 8; a++) Console::WriteLine(a);
  return a;
}
