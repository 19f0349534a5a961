// Parallel prefix over a tree, where node k stands above the nodes 2k and 2k + 1, and the leaves have the values. Sums
// go up the tree, and the sum of what stands before a node goes down. Each node is written by a thread of its own as
// soon as it can be.
// Ints: none. Answer: 30, the last of the sums that are printed.
const int N = 8;

int main() {
  sync int sum[2 * N], before[2 * N];
  par {
    parfor (int i = 0; i < N; i++) sum[N + i] = (7 * i + 3) % 10;
    parfor (int k = 1; k < N; k++) sum[k] = sum[2 * k] + sum[2 * k + 1];
    before[1] = 0;
    parfor (int k = 1; k < N; k++) before[2 * k] = before[k];
    parfor (int k = 1; k < N; k++) before[2 * k + 1] = before[k] + sum[2 * k];
  }
  for (int i = N; i < 2 * N; i++) cout << before[i] + sum[i] << " ";
  cout << endl;
  return before[2 * N - 1] + sum[2 * N - 1];
}
