int main() {
  int sum = 0;
  for (int i = 0; i < 5; i++) { if (i == 2) continue; sum += i; }
  int n = 0;
  while (n < 5) { n++; if (n % 2 == 0) continue; sum += n; }
  do { n--; if (n == 3) continue; sum += 1; } while (n > 0);
  while (true) { if (n == 7) break; n++; }
  return sum + n;
}
