// Readers of a variable that nobody assigns stay blocked; the others go on.
void reader(sync int *in, sync int *out) { *out = *in + 1; }

int main() {
  sync int given, never;
  sync int a, b, c;
  spawn reader(&given, &a);
  spawn reader(&a, &b);
  spawn reader(&never, &c);
  spawn reader(&c, &c);
  given = 40;
  cout << b << endl;
  return b;
}
