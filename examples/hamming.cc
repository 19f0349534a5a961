// The numbers that have no prime factors but 2, 3 and 5, in order, from a stream that feeds itself: three threads
// multiply it by 2, 3 and 5, and a fourth one merges what they make into the same stream.
// Ints: n, at most 59. Answer for 20: the first 20 are printed. The run ends blocked 3, since the multipliers wait for
// more.
const int MOST = 60;

void multiply(sync int *in, sync int *out, int by, int n) {
  for (int i = 0; i < n; i++) out[i] = by * in[i];
}

// Merges three streams that rise, and leaves out what comes again.
void merge(sync int *a, sync int *b, sync int *c, sync int *out, int n) {
  int i = 0, j = 0, k = 0;
  out[0] = 1;
  for (int place = 1; place < n; place++) {
    int least = a[i];
    if (b[j] < least) least = b[j];
    if (c[k] < least) least = c[k];
    out[place] = least;
    i += a[i] == least;
    j += b[j] == least;
    k += c[k] == least;
  }
}

int main(int n) {
  sync int number[MOST], twos[MOST], threes[MOST], fives[MOST];
  spawn multiply(number, twos, 2, n + 1);
  spawn multiply(number, threes, 3, n + 1);
  spawn multiply(number, fives, 5, n + 1);
  spawn merge(twos, threes, fives, number, n);
  for (int i = 0; i < n; i++) cout << number[i] << " ";
  cout << endl;
  return number[n - 1];
}
