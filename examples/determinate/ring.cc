// A token goes round a ring of processor objects, each of which adds its own number to it.
global class Station {
public:
  int own;
  Station *global sync next;
  Station(int k) { own = k; }
  int pass(int hops, int sum) {
    if (hops == 0) return sum;
    return next->pass(hops - 1, sum + own);
  }
};

int main(int stations, int hops) {
  Station *global ring[8];
  for (int i = 0; i < stations; i++) ring[i] = new Station(i + 1);
  parfor (int i = 0; i < stations; i++) ring[i]->next = ring[(i + 1) % stations];
  int sum = ring[0]->pass(hops, 0);
  cout << "sum " << sum << endl;
  return sum;
}
