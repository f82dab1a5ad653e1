int f(int n) {
  int sum = 0;
  switch (n) { default: sum += 100; case 1: sum += 1; case 2: sum += 10; break; case 3: case 4: return 4; }
  return sum;
}
int main() { return f(1) + f(2) + f(3) + f(4) + f(9); }
