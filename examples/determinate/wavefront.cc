// The number of ways through a grid: each cell waits for the one above it and the one to its left.
const int SIDE = 6;

int main() {
  sync int ways[36];
  parfor (int i = 0; i < SIDE * SIDE; i++) {
    int row = i / SIDE, column = i % SIDE;
    if (row == 0 || column == 0) ways[i] = 1;
    else ways[i] = ways[i - SIDE] + ways[i - 1];
  }
  for (int row = 0; row < SIDE; row++) {
    for (int column = 0; column < SIDE; column++) cout << ways[row * SIDE + column] << " ";
    cout << endl;
  }
  return ways[SIDE * SIDE - 1];
}
