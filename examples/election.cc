// Election in a ring: each station sends on the largest number that it has heard of. After as many rounds as there are
// stations each of them knows who leads.
// Ints: none. Answer: 99, the largest number.
const int STATIONS = 6;

global class Station {
public:
  int own;
  sync int heard[STATIONS];
  sync int leader;
  Station *global sync next;
  Station(int number) { own = number; }
  void elect() {
    int largest = own;
    for (int round = 0; round < STATIONS; round++) {
      next->heard[round] = largest;
      if (heard[round] > largest) largest = heard[round];
    }
    leader = largest;
  }
};

int main() {
  Station *global station[STATIONS];
  for (int i = 0; i < STATIONS; i++) station[i] = new Station((i * 41 + 17) % 100);
  for (int i = 0; i < STATIONS; i++) station[i]->next = station[(i + 1) % STATIONS];
  parfor (int i = 0; i < STATIONS; i++) station[i]->elect();
  int leader = station[0]->leader;
  int agree = 0;
  for (int i = 0; i < STATIONS; i++) agree += station[i]->leader == leader;
  cout << leader << " leads, say " << agree << endl;
  return leader;
}
