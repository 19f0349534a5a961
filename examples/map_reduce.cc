// Map and reduce: how often each digit stands in the squares from 1 to 60. Each mapper has a processor, takes a share
// of the squares and writes its counts to the reducers, of which each has a digit and adds up what the mappers told it.
// Ints: none. Answer: 197, how many digits there are. The counts of 0 to 9 are printed.
const int MAPPERS = 6;
const int SHARE = 10;
const int DIGITS = 10;

global class Reducer {
public:
  sync int told[MAPPERS];
  int sum() {
    int all = 0;
    for (int i = 0; i < MAPPERS; i++) all += told[i];
    return all;
  }
};

global class Mapper {
public:
  int number;
  Mapper(int k) { number = k; }
  int count(int digit) {
    int found = 0;
    for (int i = 1; i <= SHARE; i++) {
      int n = number * SHARE + i;
      for (int rest = n * n; rest > 0; rest /= 10) found += rest % 10 == digit;
    }
    return found;
  }
  void tell(Reducer *global to, int digit) { to->told[number] = count(digit); }
};

int main() {
  Mapper *global mapper[MAPPERS];
  Reducer *global reducer[DIGITS];
  for (int i = 0; i < MAPPERS; i++) mapper[i] = new Mapper(i);
  for (int d = 0; d < DIGITS; d++) reducer[d] = new Reducer();
  for (int i = 0; i < MAPPERS; i++)
    for (int d = 0; d < DIGITS; d++) spawn mapper[i]->tell(reducer[d], d);
  int all = 0;
  for (int d = 0; d < DIGITS; d++) {
    int sum = reducer[d]->sum();
    cout << sum << " ";
    all += sum;
  }
  cout << endl;
  return all;
}
