// No program of the language: `total` is not declared.
int main() {
  int sum = 0;
  for (int i = 1; i <= 10; i++)
    total += i;
  return sum;
}
