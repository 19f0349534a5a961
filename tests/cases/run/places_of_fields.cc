// Each field has its own cells, an array as many as its length, through a variable, a pointer, `this` and a global pointer.
const int wide = 3;
class Row {
public:
  int first;
  int a[wide];
  sync int middle;
  sync int b[2];
  int *p;
  int last;
  Row(int k) {
    last = k + 9;
    first = k;
    middle = k + 4;
    a[0] = k + 1;
    a[wide - 1] = k + 3;
    this->a[1] = k + 2;
    b[0] = k + 5;
    b[1] = k + 6;
    p = NULL;
  }
  int own(int i) { return first * 100 + a[i] * 10 + last; }
  int by_this(int i) { return this->middle * 100 + this->b[i] * 10 + this->last; }
};
global class Cell {
public:
  sync int a[2];
  int x;
  sync int b[1];
  int y;
  Cell(int k) { x = k; y = k + 1; a[1] = k + 2; }
  int own() { return a[0] * 1000 + this->a[1] * 100 + x * 10 + this->y; }
};
class None { };
class One { public: int x; One() { x = 6; } };
int main() {
  Row r(0);
  cout << "a variable " << r.first << r.a[0] << r.a[1] << r.a[2] << r.middle << r.b[0] << r.b[1] << (r.p == NULL) << r.last << endl;
  Row *q = new Row(10);
  cout << "a pointer " << q->first << q->a[0] << q->a[1] << q->a[2] << (*q).middle << q->b[0] << q->b[1] << (q->p == NULL) << q->last << endl;
  cout << "own " << r.own(0) << " " << r.own(2) << " " << q->own(1) << endl;
  cout << "this " << r.by_this(0) << " " << r.by_this(1) << endl;
  Cell *global c = new Cell(3);
  par {
    c->a[0] = 2;
    c->b[0] = 8;
  }
  cout << "a global pointer " << c->a[0] << c->a[1] << c->x << c->b[0] << c->y << " " << c->own() << endl;
  None n;
  None *m = new None;
  One o;
  cout << "one field and none " << o.x << (m == &n) << endl;
  return r.last;
}
