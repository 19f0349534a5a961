// The second branch waits for the first one's value in every order of steps.
int main(int n) {
  sync int a, b;
  par {
    b = a * n;
    a = n + 1;
  }
  cout << "b " << b;
  return b - a;
}
