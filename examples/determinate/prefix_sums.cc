// Sums of fronts of a list, in rounds: each place adds what stands so far before it, twice as far in each round.
const int N = 16;

int main() {
  sync int at[80];
  parfor (int i = 0; i < N; i++) at[i] = i + 1;
  int far = 1;
  for (int round = 0; round < 4; round++) {
    parfor (int i = 0; i < N; i++) {
      int from = round * N + i;
      if (i < far) at[from + N] = at[from];
      else at[from + N] = at[from] + at[from - far];
    }
    far = 2 * far;
  }
  for (int i = 0; i < N; i++) cout << at[4 * N + i] << " ";
  cout << endl;
  return at[5 * N - 1];
}
