// A wavefront: how many digits have to be put in, taken out or changed to make one number of another. Each place of the
// table is assigned once, by a branch that waits for the three places above and to the left; so the work goes through
// the table in a slanting line.
// Ints: two numbers of at most 8 digits. Answer for 31415926 and 2718281: 7.
const int SIDE = 9;

int least(int a, int b) {
  if (a < b) return a;
  return b;
}

int length(int number) {
  int count = 0;
  while (number > 0) {
    number /= 10;
    count++;
  }
  return count;
}

// The digit at a place, from the right and from 1.
int digit(int number, int place) {
  for (int i = 1; i < place; i++) number /= 10;
  return number % 10;
}

int main(int a, int b) {
  int rows = length(a), columns = length(b);
  sync int cost[SIDE * SIDE];
  parfor (int i = 0; i <= rows; i++)
    parfor (int k = 0; k <= columns; k++) {
      if (i == 0 || k == 0) cost[i * SIDE + k] = i + k;
      else {
        int change = cost[(i - 1) * SIDE + k - 1] + (digit(a, i) != digit(b, k));
        int other = least(cost[(i - 1) * SIDE + k], cost[i * SIDE + k - 1]) + 1;
        cost[i * SIDE + k] = least(change, other);
      }
    }
  int distance = cost[rows * SIDE + columns];
  cout << "distance " << distance << endl;
  return distance;
}
