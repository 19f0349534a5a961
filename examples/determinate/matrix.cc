// The product of two matrices, each element by a thread of its own, as soon as the elements that it needs are there.
const int N = 4;

void fill(sync int *m, int scale) {
  parfor (int i = 0; i < N * N; i++) m[i] = scale * (i % N) + i / N;
}

void product(sync int *a, sync int *b, sync int *c) {
  parfor (int i = 0; i < N * N; i++) {
    int sum = 0;
    for (int k = 0; k < N; k++) sum += a[i / N * N + k] * b[k * N + i % N];
    c[i] = sum;
  }
}

int main() {
  sync int a[16], b[16], c[16], d[16];
  par {
    product(c, a, d);
    product(a, b, c);
    fill(b, 3);
    fill(a, 2);
  }
  int trace = 0;
  for (int i = 0; i < N; i++) {
    cout << d[i * N + i] << " ";
    trace += d[i * N + i];
  }
  cout << endl;
  return trace;
}
