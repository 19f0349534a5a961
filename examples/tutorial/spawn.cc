// A spawned thread goes on by itself: nobody waits for it to end. What it returns is dropped, so it is told where to
// put its answer.
void power(int base, int exponent, sync int *answer) {
  int result = 1;
  for (int i = 0; i < exponent; i++) result *= base;
  *answer = result;
}

int main() {
  sync int a, b;
  spawn power(2, 10, &a);
  spawn power(3, 6, &b);
  cout << a << " " << b << endl;
  return a - b;
}
