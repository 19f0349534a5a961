global class Box { public: sync int v; };
global class Hand { public: void give(Box *global b, int n) { b->v = n; } };
int main() {
  Box *global b = new Box();
  Hand *global h = new Hand();
  sync int got;
  par { got = b->v; h->give(b, 9); }
  cout << got << endl;
  return got;
}
