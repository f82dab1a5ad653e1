int main() {
  break; }