// Shortest paths between all places (Floyd's algorithm): in round k the ways through place k come in. All lengths of a
// round are found side by side.
// Ints: none. Answer: 11, the length of the longest of the shortest paths. All lengths are printed.
const int N = 6;
const int NONE = 1000;

// Roads lead from each place to the next one, and from place 0 to place 3; all of them are of one way.
int road(int from, int to) {
  if (from == to) return 0;
  if (to == (from + 1) % N) return 1 + from % 3;
  if (from == 0 && to == 3) return 2;
  return NONE;
}

int least(int a, int b) {
  if (a < b) return a;
  return b;
}

int main() {
  sync int length[(N + 1) * N * N];
  par {
    parfor (int i = 0; i < N * N; i++) length[i] = road(i / N, i % N);
    parfor (int k = 0; k < N; k++)
      parfor (int i = 0; i < N * N; i++) {
        sync int *before = &length[k * N * N];
        length[(k + 1) * N * N + i] = least(before[i], before[i / N * N + k] + before[k * N + i % N]);
      }
  }
  int longest = 0;
  for (int i = 0; i < N; i++) {
    for (int j = 0; j < N; j++) {
      int found = length[N * N * N + i * N + j];
      cout << found << " ";
      if (found > longest) longest = found;
    }
    cout << endl;
  }
  return longest;
}
