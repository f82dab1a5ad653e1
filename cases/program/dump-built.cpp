int main() { System::Console::WriteLine(2147483647 + 1); return 0; }
