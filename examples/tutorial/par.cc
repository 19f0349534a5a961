// A parallel block: its two statements run side by side, and the block ends when both have ended.
int sum(int from, int to) {
  int all = 0;
  for (int i = from; i <= to; i++) all += i;
  return all;
}

int main() {
  sync int low, high;
  par {
    low = sum(1, 50);
    high = sum(51, 100);
  }
  cout << low << " + " << high << endl;
  return low + high;
}
