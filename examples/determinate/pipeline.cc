// Stages that each take numbers from the stage before as they come: one doubles them, one adds them up, one keeps the sum of each two.
const int ITEMS = 12;

void numbers(sync int *out) {
  for (int i = 0; i < ITEMS; i++) out[i] = i + 1;
}

void doubles(sync int *in, sync int *out) {
  for (int i = 0; i < ITEMS; i++) out[i] = 2 * in[i];
}

void sums(sync int *in, sync int *out) {
  int sum = 0;
  for (int i = 0; i < ITEMS; i++) {
    sum += in[i];
    out[i] = sum;
  }
}

void pairs(sync int *in, sync int *out) {
  for (int i = 0; i < ITEMS; i += 2) out[i / 2] = in[i] + in[i + 1];
}

int main() {
  sync int a[ITEMS], b[ITEMS], c[ITEMS], d[ITEMS];
  par {
    pairs(c, d);
    sums(b, c);
    doubles(a, b);
    numbers(a);
  }
  for (int i = 0; i < ITEMS / 2; i++) cout << d[i] << " ";
  cout << endl;
  return d[ITEMS / 2 - 1];
}
