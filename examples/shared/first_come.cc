// Who comes first: two searchers look for a divisor of n from two sides, and the first one to tell its own is heard.
// Ints: n. Breaks AtomicUsed. Answer for 91: 7 or 13, by the order of the threads.
class First {
public:
  int found;
  atomic void tell(int divisor) {
    if (found == 0) found = divisor;
  }
};

int upwards(int n) {
  int k = 2;
  while (n % k != 0) k++;
  return k;
}

int downwards(int n) {
  int k = n / 2;
  while (n % k != 0) k--;
  return k;
}

int main(int n) {
  First first;
  par {
    first.tell(upwards(n));
    first.tell(downwards(n));
  }
  return first.found;
}
