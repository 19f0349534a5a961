// A barrier with a counter: the last one to arrive lets all go on. It knows nobody's number, and one object serves all
// phases.
// Ints: none. Breaks AtomicUsed. Answer: 0, how many were let go before all had arrived, in every order.
const int WORKERS = 4;
const int PHASES = 3;

class Barrier {
public:
  int arrived;
  sync int open[PHASES];
  // Counts one more; where it is the last one of its phase, the phase is open.
  atomic void arrive() {
    arrived = arrived + 1;
    if (arrived % WORKERS == 0) open[arrived / WORKERS - 1] = 1;
  }
  atomic int count() { return arrived; }
};

int main() {
  Barrier barrier;
  sync int early[WORKERS * PHASES];
  parfor (int i = 0; i < WORKERS; i++)
    for (int phase = 0; phase < PHASES; phase++) {
      barrier.arrive();
      int waited = barrier.open[phase];
      early[i * PHASES + phase] = barrier.count() < (phase + 1) * WORKERS;
    }
  int sum = 0;
  for (int i = 0; i < WORKERS * PHASES; i++) sum += early[i];
  cout << sum << " early" << endl;
  return sum;
}
