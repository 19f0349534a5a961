// The race mended: each branch has a place of its own, and main adds them up.
int main() {
  sync int part[4];
  parfor (int i = 1; i <= 3; i++) part[i] = i;
  int sum = 0;
  for (int i = 1; i <= 3; i++) sum += part[i];
  return sum;
}
