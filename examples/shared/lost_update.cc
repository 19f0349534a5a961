// A lost update: n = n + 1 is three steps, a read, a sum and a write. Where both branches read before one of them
// writes, one update is lost.
// Ints: none. Breaks OuterPlainWritten. Answer: 1 or 2, by the order of the threads. (counter.cc mends it.)
int main() {
  int n;
  par {
    n = n + 1;
    n = n + 1;
  }
  return n;
}
