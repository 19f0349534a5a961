// A race in five lines: two branches assign one variable.
// Ints: none. Breaks OuterPlainWritten. Answer: 1 or 2, by the order of the threads.
int main() {
  int n;
  par { n = 1; n = 2; }
  return n;
}
