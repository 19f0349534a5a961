// The header of a `for` or `parfor` is a scope with its statement, within the block around it.
int main() {
  int i = 100;
  int sum;
  for (int i = 0; i < 3; i++) sum += i;
  cout << "own " << i << " " << sum << endl;
  for (int i = i; i < 103; i++) sum += 10;
  cout << "start from the outer " << i << " " << sum << endl;
  for (i = 0; i < 5; i++) ;
  cout << "the outer itself " << i << endl;
  sum = 0;
  for (int i = 0; i < 2; i++) { { int i = 50; i++; sum += i; } sum += i; }
  cout << "a block within " << i << " " << sum << endl;
  sum = 0;
  for (int i = 0; i < 2; i++) for (int i = 10; i < 13; i++) sum++;
  cout << "a header within " << i << " " << sum << endl;
  sum = 0;
  for (int i = 0; i < 2; i++) { for (int i = 10; i < 13; i++) ; sum += i + 1; }
  cout << "behind a header within " << i << " " << sum << endl;
  sum = 0;
  for (int j = 0, k = j + 10; j < k; j++) { k--; sum += k; }
  cout << "two of one header " << sum << endl;
  sync int a[9];
  parfor (int i = i; i < 7; i++) a[i] = i * i;
  cout << "start of a parfor " << i << " " << a[5] << " " << a[6] << endl;
  parfor (int i = 0; i < 3; i++) { i += 2; a[i] = i; }
  cout << "a copy " << i << " " << a[2] << " " << a[3] << " " << a[4] << endl;
  parfor (int i = 0; i < 2; i++) parfor (int i = i + 7; i < 8; i++) a[i] = i;
  cout << "a parfor within " << i << " " << a[7] << endl;
  parfor (int j = 0; j < 1; j++) { int i = i; i += 3; a[i] = j + i; }
  cout << "the outer in a branch " << i << " " << a[8] << endl;
  return i;
}
