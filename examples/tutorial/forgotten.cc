// A deadlock: where n is negative, nobody assigns what the second branch waits for.
int main(int n) {
  sync int whole, half;
  par {
    if (n >= 0) whole = n;
    half = whole / 2;
  }
  return half;
}
