// Dining philosophers, blocked. A fork lies between two philosophers, who use it in turns: first the one who holds it
// at the beginning, then the other. Here each holds the fork on his right, and waits for the one on his left, whose
// holder waits likewise.
// Ints: none. Answer: blocked 6. These are the five philosophers, and main, which waits for them.
const int SEATS = 5;
const int MEALS = 3;
const int TURNS = 6;

// Who holds the fork between the philosophers `fork` and `fork + 1` at the beginning.
int holder(int fork) { return fork; }

// Of the turns at a fork every second one is a philosopher's own.
int turn(int me, int fork, int meal) { return 2 * meal + (holder(fork) != me); }

// Waits until the turn before this one has ended.
void take(sync int *ended, int fork, int turn) {
  int before = 0;
  if (turn > 0) before = ended[fork * TURNS + turn - 1];
}

void philosopher(sync int *ended, sync int *meals, int me) {
  int right = me;
  int left = (me + SEATS - 1) % SEATS;
  for (int meal = 0; meal < MEALS; meal++) {
    take(ended, right, turn(me, right, meal));
    take(ended, left, turn(me, left, meal));
    meals[me * MEALS + meal] = 1;
    ended[right * TURNS + turn(me, right, meal)] = 1;
    ended[left * TURNS + turn(me, left, meal)] = 1;
  }
}

int main() {
  sync int ended[SEATS * TURNS], meals[SEATS * MEALS];
  parfor (int i = 0; i < SEATS; i++) philosopher(ended, meals, i);
  int sum = 0;
  for (int i = 0; i < SEATS * MEALS; i++) sum += meals[i];
  cout << sum << " meals" << endl;
  return sum;
}
