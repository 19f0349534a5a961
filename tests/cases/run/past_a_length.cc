const int n = 3;
int main() {
  int n[n];
  n[2] = 5;
  cout << n[2] << endl;
  n[3] = 6;
  return n[2];
}
