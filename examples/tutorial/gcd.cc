// The sequential subset: functions, variables, loops and printing, as in C++.
int gcd(int a, int b) {
  while (b != 0) {
    int rest = a % b;
    a = b;
    b = rest;
  }
  return a;
}

int main(int a, int b) {
  int divisor = gcd(a, b);
  cout << "gcd of " << a << " and " << b << ": " << divisor << endl;
  return divisor;
}
