// Each processor tells its number to every other one, and adds up what it is told.
const int N = 5;

global class Party {
public:
  sync int told[N];
  sync int sum;
  void hear(int from, int number) { told[from] = number; }
  void add() {
    int total = 0;
    for (int i = 0; i < N; i++) total = total * 2 + told[i];
    sum = total;
  }
};

int main() {
  Party *global party[N];
  for (int i = 0; i < N; i++) party[i] = new Party();
  par {
    parfor (int i = 0; i < N; i++) party[i]->add();
    parfor (int i = 0; i < N; i++)
      parfor (int k = 0; k < N; k++) spawn party[k]->hear(i, 3 * i + k);
  }
  int all = 0;
  for (int i = 0; i < N; i++) {
    cout << party[i]->sum << " ";
    all += party[i]->sum;
  }
  cout << endl;
  return all;
}
