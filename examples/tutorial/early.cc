// Loops that are left early: `break` leaves the nearest loop, and `continue` goes on with its next turn.
int main(int last) {
  int count = 0;
  for (int n = 2; n <= last; n++) {
    int divisor = 2;
    while (divisor < n) {
      if (n % divisor == 0) break;
      divisor++;
    }
    if (divisor < n) continue;
    cout << n << " ";
    count++;
  }
  cout << endl;
  return count;
}
