using namespace System;
int main() {
  int a = 2147483647; a++; Console::WriteLine(a);
  unsigned b = 0; b--; Console::WriteLine(b);
  Console::WriteLine(9223372036854775807ll + 1);
  Console::WriteLine(1 << 33); Console::WriteLine(1 << -1); Console::WriteLine(1ll << 65);
  Console::WriteLine(-8 >> 1); Console::WriteLine(0xFFFFFFF8u >> 1);
  Console::WriteLine(-7 / 2); Console::WriteLine(-7 % 2); Console::WriteLine(7 / -2);
  Console::WriteLine(-1 < 1u); Console::WriteLine(-1 < 1ll);
  Console::WriteLine((unsigned char)300); Console::WriteLine(short(70000)); Console::WriteLine((int)4294967295u);
  return 0;
}
