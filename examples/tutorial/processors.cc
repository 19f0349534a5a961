// Processor objects: `new` of a global class makes a processor with an object on it. Its functions run there, and
// others reach it through a global pointer: they read and write its fields, and call its functions.
global class Adder {
public:
  int step;
  sync int in;
  Adder *global sync next;
  Adder(int k) { step = k; }
  int run() {
    if (next == NULL) return in + step;
    next->in = in + step;
    return next->run();
  }
};

int main() {
  Adder *global one = new Adder(1);
  Adder *global ten = new Adder(10);
  Adder *global hundred = new Adder(100);
  one->next = ten;
  ten->next = hundred;
  hundred->next = NULL;
  sync int sum;
  par {
    sum = one->run();
    one->in = 7;
  }
  cout << "one reads " << one->in << ", hundred reads " << hundred->in << endl;
  return sum;
}
