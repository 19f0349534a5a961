// A pipeline over processors: each stage takes numbers as they come, works on them, and sends them to the next stage.
// Ints: none. Answer: 85, the sum of the numbers that come out.
const int ITEMS = 5;

global class Stage {
public:
  sync int in[ITEMS];
  void work(int times, int plus, Stage *global next) {
    for (int i = 0; i < ITEMS; i++) next->in[i] = in[i] * times + plus;
  }
};

int main() {
  Stage *global first = new Stage();
  Stage *global second = new Stage();
  Stage *global end = new Stage();
  spawn first->work(2, 1, second);
  spawn second->work(3, -4, end);
  for (int i = 0; i < ITEMS; i++) first->in[i] = i + 1;
  int sum = 0;
  for (int i = 0; i < ITEMS; i++) {
    cout << end->in[i] << " ";
    sum += end->in[i];
  }
  cout << endl;
  return sum;
}
