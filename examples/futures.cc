// Futures: a value is asked for before it is wanted. The spawned thread computes it meanwhile, and who reads it waits
// until it is there.
// Ints: n. Answer for 9: 89, which is fibonacci(9) + fibonacci(10).
class Future {
public:
  sync int value;
  void compute(int n) { value = fibonacci(n); }
};

Future *future(int n) {
  Future *made = new Future;
  spawn made->compute(n);
  return made;
}

int fibonacci(int n) {
  if (n < 2) return n;
  Future *one = future(n - 1);
  return fibonacci(n - 2) + one->value;
}

int main(int n) {
  Future *a = future(n);
  Future *b = future(n + 1);
  int sum = a->value + b->value;
  cout << a->value << " + " << b->value << " = " << sum << endl;
  return sum;
}
