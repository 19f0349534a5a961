// Each call is of its own function, and each object of its own class, in whatever order they stand.
int first() { return 1; }
class A {
public:
  int x;
  A(int k) { x = 10 + k; }
  int second() { return 2; }
  int third() { return x * 100 + second() * 10 + first(); }
};
int fourth(int k) { return 4 * k; }
const int five = 5;
class B {
public:
  int fifth() { return five; }
  sync int y;
  int x;
  int second() { return x; }
  B(int k) { x = 20 + k; y = k + 21; }
};
class C { public: int seventh() { return 7; } };
int sixth(A *a, B *b) { return a->second() * 100 + b->second(); }
global class D {
public:
  int eighth(int k) { if (k) return 8 + eighth(k - 1); return 0; }
  int x;
  D(int k) { x = 30 + k; }
};
int main() {
  A a(1);
  B b(2);
  C c;
  D *global d = new D(3);
  cout << a.third() << " " << a.second() << " " << fourth(11) << endl;
  cout << b.fifth() << " " << b.second() << " " << c.seventh() << endl;
  cout << sixth(&a, &b) << " " << sixth(new A(4), new B(5)) << endl;
  cout << d->eighth(2) << " " << ninth() << endl;
  cout << a.x << " " << b.x << " " << b.y << " " << d->x << endl;
  return ninth();
}
int ninth() { return 9; }
