// A deadlock in its shortest form: two threads, each of which waits for what the other one is to assign after it.
// Ints: none. Answer: blocked 3. These are the two threads, and main, which waits for them.
int main() {
  sync int a, b;
  par {
    a = b + 1;
    b = a + 1;
  }
  return a;
}
