// The product of two matrices over processors: each worker has a processor of its own, reads what it needs of the two
// matrices through global pointers, and keeps one row of the product.
// Ints: none. Answer: 240, the sum of the diagonal. The rows are printed.
const int N = 4;

global class Worker {
public:
  sync int row[N];
  void multiply(int i, sync int *global a, sync int *global b) {
    parfor (int j = 0; j < N; j++) {
      int sum = 0;
      for (int k = 0; k < N; k++) sum += a[i * N + k] * b[k * N + j];
      row[j] = sum;
    }
  }
};

int main() {
  sync int a[N * N], b[N * N];
  Worker *global worker[N];
  for (int i = 0; i < N; i++) worker[i] = new Worker();
  par {
    parfor (int i = 0; i < N; i++) worker[i]->multiply(i, a, b);
    for (int k = 0; k < N * N; k++) {
      a[k] = k + 1;
      b[k] = k % 5;
    }
  }
  int trace = 0;
  for (int i = 0; i < N; i++) {
    for (int j = 0; j < N; j++) cout << worker[i]->row[j] << " ";
    cout << endl;
    trace += worker[i]->row[i];
  }
  return trace;
}
