// A run without an end. It is stopped by its step limit.
int main() {
  int n = 0;
  while (1) n = 1 - n;
  return n;
}
