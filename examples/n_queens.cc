// The n queens: in how many ways can n queens stand on a board of n rows, so that none attacks another? Each place in
// the first row is tried by a branch of its own. A board is one number, with a digit for each row: the queen's column
// and 1.
// Ints: n, at most 8. Answer for 5: 10.
const int BASE = 10;

// Whether a queen in this column of the next row is attacked by none of those on the board.
int is_safe(int board, int column) {
  for (int distance = 1; board > 0; distance++) {
    int other = board % BASE - 1;
    if (other == column || other - column == distance || column - other == distance) return 0;
    board = board / BASE;
  }
  return 1;
}

int ways(int n, int row, int board) {
  if (row == n) return 1;
  int sum = 0;
  for (int column = 0; column < n; column++)
    if (is_safe(board, column)) sum += ways(n, row + 1, board * BASE + column + 1);
  return sum;
}

int main(int n) {
  sync int found[8];
  parfor (int column = 0; column < n; column++) found[column] = ways(n, 1, column + 1);
  int count = 0;
  for (int column = 0; column < n; column++) count += found[column];
  cout << count << " ways" << endl;
  return count;
}
