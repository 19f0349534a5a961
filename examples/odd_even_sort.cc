// A sorting network: in each round neighbours are compared and put in order, in turn those that begin at an even place
// and at an odd one. Each place of each round is a variable of its own, so all of the network can run at once.
// Ints: none. Answer: 0, the number of places that are out of order. The sorted numbers are printed.
const int N = 8;

int least(int a, int b) {
  if (a < b) return a;
  return b;
}

// What stands at a place after a round, from what stands before it.
int settled(sync int *before, int place, int round) {
  int is_first = place % 2 == round % 2;
  if (is_first && place == N - 1 || !is_first && place == 0) return before[place];
  if (is_first) return least(before[place], before[place + 1]);
  return before[place - 1] + before[place] - least(before[place - 1], before[place]);
}

int main() {
  sync int at[(N + 1) * N];
  par {
    parfor (int i = 0; i < N; i++) at[i] = (N - i) * 5 % 9 + 10 * (i % 3);
    parfor (int round = 0; round < N; round++)
      parfor (int i = 0; i < N; i++) at[(round + 1) * N + i] = settled(&at[round * N], i, round);
  }
  int wrong = 0;
  for (int i = N * N; i < (N + 1) * N; i++) {
    cout << at[i] << " ";
    if (i > N * N) wrong += at[i] < at[i - 1];
  }
  cout << endl;
  return wrong;
}
