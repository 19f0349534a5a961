// A class: its constructor sets the fields, its functions read them. `new` makes an object, and gives a pointer to it.
class Fraction {
public:
  int above;
  int below;
  Fraction(int a, int b) {
    above = a;
    below = b;
  }
  Fraction *plus(Fraction *other) {
    return new Fraction(above * other->below + other->above * below, below * other->below);
  }
};

int main() {
  Fraction *sum = new Fraction(0, 1);
  for (int i = 1; i <= 4; i++) sum = sum->plus(new Fraction(1, i));
  cout << sum->above << "/" << sum->below << endl;
  return sum->above / sum->below;
}
