// `break` leaves the nearest loop alone; `continue` goes on with its next turn, by the test of a `while`, by the last part of a `for`'s header.
int divisor(int n) {
  for (int d = 2;; d++) {
    while (1) {
      if (n % d == 0) return d;
      break;
    }
  }
}

int main() {
  int n, sum;
  while (1) { n++; if (n == 5) break; }
  cout << "left at " << n << endl;
  n = 0;
  while (n < 6) { n++; if (n % 2 == 0) continue; sum += n; }
  cout << "the test is next " << n << " " << sum << endl;
  sum = 0;
  for (n = 0; n < 6; n++) { if (n % 2 == 0) continue; sum += n; }
  cout << "the last part is next " << n << " " << sum << endl;
  for (n = 0; n < 9; n++) if (n == 4) break; else continue;
  cout << "no last part behind a break " << n << endl;
  sum = 0;
  for (int i = 0; i < 4; i++) for (int j = 0; j < 4; j++) { if (j == i) break; sum += 10 * i + j; }
  cout << "the inner loop alone " << sum << endl;
  sum = 0;
  for (int i = 0; i < 3; i++) { for (int j = 0; j < 4; j++) { if (j % 2) continue; sum += 10 * i + j; } if (i == 1) break; }
  cout << "then the outer one " << sum << endl;
  n = 0;
  while (n < 3) { for (;;) break; n++; continue; n = 100; }
  cout << "a loop behind a loop " << n << endl;
  n = 1;
  while (1) { int n = 3; { int n = 4; { if (n == 4) break; } } n = 5; }
  cout << "out of three blocks " << n << endl;
  sum = 0;
  for (int i = 0; i < 4; i++) { sync int s; if (i == 1) continue; s = i; sum += s; }
  cout << "a sync variable a turn " << sum << endl;
  sync int a[6];
  for (int i = 0; i < 6; i++) { par { for (int j = 0;; j++) { if (j * j >= 5 * i) { a[i] = j; break; } } } if (a[i] == 4) break; }
  cout << "in a branch " << a[0] << " " << a[1] << " " << a[2] << endl;
  sync int b[4];
  parfor (int i = 0; i < 4; i++) { int k = i; while (k < 3) { k++; if (k == 2) break; } b[i] = k; }
  cout << "in a branch of a loop " << b[0] << " " << b[1] << " " << b[2] << " " << b[3] << endl;
  cout << "by a return " << divisor(91) << endl;
  return n;
}
