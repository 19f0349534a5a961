// Two calls that wait for each other's branches at every level.
int fibonacci(int n) {
  if (n < 2) return n;
  sync int a, b;
  par {
    a = fibonacci(n - 1);
    b = fibonacci(n - 2);
  }
  return a + b;
}

int main(int n) {
  sync int answers[32];
  parfor (int i = 0; i <= n; i++) answers[i] = fibonacci(i);
  for (int i = 0; i <= n; i++) cout << answers[i] << " ";
  cout << endl;
  return answers[n];
}
