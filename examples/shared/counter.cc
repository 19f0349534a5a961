// The lost update mended: an atomic function has the object for itself from its call to its return, so no update comes
// between.
// Ints: n, the number of branches. Breaks PlainMember. Answer for 8: 36 in every order, though the rules of sharing do
// not see it.
class Counter {
public:
  int n;
  atomic void add(int k) { n = n + k; }
};

int main(int n) {
  Counter counter;
  parfor (int i = 1; i <= n; i++) counter.add(i);
  cout << counter.n << endl;
  return counter.n;
}
