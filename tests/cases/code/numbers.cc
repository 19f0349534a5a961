const int one = 1;
class None { };
class Pair {
public:
  int a[2];
  sync int b;
  int first(int k) { return b + k; }
  Pair(int k) { a[one] = k; }
  int *c;
  int second() { return a[one] + first(2) + this->b; }
};
int third(int x, int y) { { int x = y; y = x; } { int z; z = x; } return one; }
global class Far {
public:
  sync int s;
  Pair *global p;
  void fourth() { s = 4; p->b = 5; }
};
int main() {
  None n;
  Pair p(3);
  Far *global f = new Far;
  f->fourth();
  spawn third(6, 7);
  for (int i = 0; i < 1; i++) { int j = i; }
  int k = p.second();
  return p.b + f->s;
}
