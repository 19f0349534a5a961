// A fault: 21! has more than 64 bits.
int factorial(int n) {
  int product = 1;
  for (int i = 2; i <= n; i++)
    product *= i;
  return product;
}

int main(int n) {
  cout << factorial(20) << endl;
  return factorial(n);
}
