// A parallel loop: each turn is a branch of its own, with its own copy of i.
const int N = 8;

int main() {
  sync int square[N];
  parfor (int i = 0; i < N; i++) square[i] = i * i;
  int sum = 0;
  for (int i = 0; i < N; i++) {
    cout << square[i] << " ";
    sum += square[i];
  }
  cout << endl;
  return sum;
}
