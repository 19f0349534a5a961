// A name that is no variable means the own member, and else a constant or a function of the file.
const int value = 1;
const int other = 2;
int twice(int k) { return 2 * k; }
int later() { return 5; }
class Hides {
public:
  int own() { return value; }
  int both(int value) { return value * 100 + this->value; }
  int start() { int value = value + 1; return value * 100 + this->value; }
  int theirs(Hides *value) { return value->value * 100 + this->value; }
  int of_the_file() { return other; }
  int call() { return twice(10); }
  int twice(int k) { return 3 * k; }
  int behind() { return later; }
  int value;
  int later;
  Hides(int k) { value = k; later = k + 1; }
};
class Sees {
public:
  int other;
  Sees(int value, int later) { other = value * 10 + later; }
  int own() { return value * 100 + other; }
  int call() { return twice(10) + later(); }
};
global class Apart {
public:
  int other;
  int value;
  Apart(int other, int k) { this->other = other; value = k; }
  int own() { return value * 100 + this->other; }
  int theirs(Apart *global value) { return value->value * 100 + other + value->own(); }
};
int main() {
  Hides h(7);
  Hides other(8);
  cout << "own " << h.own() << " " << other.own() << endl;
  cout << "a parameter " << h.both(4) << endl;
  cout << "a variable " << h.start() << endl;
  cout << "of another object " << h.theirs(&other) << " " << other.theirs(&h) << endl;
  cout << "of the file " << h.of_the_file() << " " << value << endl;
  cout << "a function " << h.call() << " " << h.twice(1) << " " << twice(1) << endl;
  cout << "declared behind its use " << h.behind() << endl;
  Sees s(3, 4);
  cout << "none of that name " << s.own() << " " << s.call() << endl;
  Apart *global a = new Apart(3, 4);
  Apart *global b = new Apart(5, 6);
  cout << "on processors " << a->own() << " " << b->own() << " " << a->theirs(b) << endl;
  return h.value;
}
