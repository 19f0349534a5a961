// A barrier: in each phase every worker says that it has arrived, and goes on once all have. So each finds what its
// neighbours made in the phase before. (shared/barrier.cc does it with a counter.)
// Ints: none. Answer: 240, the sum of the numbers that are printed.
const int WORKERS = 5;
const int PHASES = 3;

void wait_for_all(sync int *arrived, int phase) {
  int count = 0;
  for (int i = 0; i < WORKERS; i++) count += arrived[phase * WORKERS + i];
}

void work(sync int *number, sync int *arrived, int me) {
  number[me] = me * me;
  arrived[me] = 1;
  for (int phase = 0; phase < PHASES; phase++) {
    wait_for_all(arrived, phase);
    int left = number[phase * WORKERS + (me + WORKERS - 1) % WORKERS];
    int right = number[phase * WORKERS + (me + 1) % WORKERS];
    number[(phase + 1) * WORKERS + me] = left + right;
    arrived[(phase + 1) * WORKERS + me] = 1;
  }
}

int main() {
  sync int number[(PHASES + 1) * WORKERS], arrived[(PHASES + 1) * WORKERS];
  parfor (int i = 0; i < WORKERS; i++) work(number, arrived, i);
  int sum = 0;
  for (int i = 0; i < WORKERS; i++) {
    cout << number[PHASES * WORKERS + i] << " ";
    sum += number[PHASES * WORKERS + i];
  }
  cout << endl;
  return sum;
}
