// Work is spawned on other processors, which write their answers back through global pointers.
global class Worker {
public:
  int factor;
  Worker(int k) { factor = k; }
  void times(int n, sync int *global answer) { *answer = factor * n; }
};

int main() {
  Worker *global worker[3];
  for (int i = 0; i < 3; i++) worker[i] = new Worker(i + 2);
  sync int answer[9];
  for (int i = 0; i < 9; i++) spawn worker[i % 3]->times(i, &answer[i]);
  int sum = 0;
  for (int i = 0; i < 9; i++) {
    cout << answer[i] << " ";
    sum += answer[i];
  }
  cout << endl;
  return sum;
}
