// A search that ends early: the prime factors of n. Each searcher has a processor and a share of the candidates, and
// leaves its loop at the first one that divides n. main leaves its loop at the first share with a divisor, and does not
// wait for the searchers behind it.
// Ints: n, from 1 to 10000. Answer for 9996: 6, as many factors are printed.
const int SEARCHERS = 4;
const int SHARE = 25;

global class Searcher {
public:
  int from;
  Searcher(int first) { from = first; }
  // Answers with the least divisor of n in its share, or 0 where there is none.
  void search(int n, sync int *global answer) {
    int divisor = 0;
    for (int d = from; d < from + SHARE; d++) {
      if (n % d != 0) continue;
      divisor = d;
      break;
    }
    *answer = divisor;
  }
};

int main(int n) {
  Searcher *global searcher[SEARCHERS];
  for (int i = 0; i < SEARCHERS; i++) searcher[i] = new Searcher(2 + i * SHARE);
  int count = 0;
  while (n > 1) {
    sync int found[SEARCHERS];
    for (int i = 0; i < SEARCHERS; i++) spawn searcher[i]->search(n, &found[i]);
    int divisor = n;
    for (int i = 0; i < SEARCHERS; i++) {
      if (found[i] == 0) continue;
      divisor = found[i];
      break;
    }
    cout << divisor << " ";
    count++;
    n /= divisor;
  }
  cout << endl;
  return count;
}
