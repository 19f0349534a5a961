// The sum of a range of numbers, by halves that are summed side by side.
int sum(int from, int to) {
  if (to - from == 1) return from * from;
  int middle = (from + to) / 2;
  sync int left, right;
  par {
    left = sum(from, middle);
    right = sum(middle, to);
  }
  return left + right;
}

int main(int n) {
  int squares = sum(0, n);
  cout << squares << endl;
  return squares;
}
