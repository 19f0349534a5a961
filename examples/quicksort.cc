// Quicksort: what is less than the first number and what is not are sorted side by side, each into its own part of the
// result.
// Ints: none. Answer: 0, the number of places that are out of order. The sorted numbers are printed.
const int N = 12;

void sort(sync int *in, int n, sync int *out) {
  if (n == 0) return;
  sync int *less = new sync int[N];
  sync int *others = new sync int[N];
  int a = 0, b = 0;
  for (int i = 1; i < n; i++) {
    if (in[i] < in[0]) {
      less[a] = in[i];
      a++;
    } else {
      others[b] = in[i];
      b++;
    }
  }
  par {
    sort(less, a, out);
    out[a] = in[0];
    sort(others, b, &out[a + 1]);
  }
}

int main() {
  sync int in[N], out[N];
  par {
    parfor (int i = 0; i < N; i++) in[i] = (i * i * 7 + 5 * i + 8) % 23;
    sort(in, N, out);
  }
  int wrong = 0;
  for (int i = 0; i < N; i++) {
    cout << out[i] << " ";
    if (i > 0) wrong += out[i] < out[i - 1];
  }
  cout << endl;
  return wrong;
}
