// Each branch looks along its own row, passes over odd numbers, and leaves its loop at the first multiple of 7.
const int ROWS = 5;
const int WIDE = 20;

int number(int row, int place) { return (row * 37 + place * 11) % 50 + 1; }

int main() {
  sync int first[ROWS];
  parfor (int row = 0; row < ROWS; row++) {
    int place = 0;
    for (; place < WIDE; place++) {
      if (number(row, place) % 2 == 1) continue;
      if (number(row, place) % 7 == 0) break;
    }
    first[row] = place;
  }
  int sum = 0;
  int row = 0;
  while (1) {
    if (row == ROWS) break;
    cout << first[row] << " ";
    sum += first[row];
    row++;
  }
  cout << endl;
  return sum;
}
