// The sieve of Eratosthenes as a pipeline: the first number that comes through is prime, and a new filter behind it
// takes its multiples away.
// Ints: n, the last number. Answer for 50: 15, as many primes are printed.
class Item {
public:
  sync int value;
  Item *sync next;
};

// Writes a number into the item, and gives the item behind it.
Item *put(Item *at, int number) {
  Item *more = new Item;
  at->value = number;
  at->next = more;
  return more;
}

void numbers(Item *out, int n) {
  for (int i = 2; i <= n; i++) out = put(out, i);
  out->value = 0;
}

void filter(int prime, Item *in, Item *out) {
  while (in->value != 0) {
    if (in->value % prime != 0) out = put(out, in->value);
    in = in->next;
  }
  out->value = 0;
}

void sieve(Item *in, Item *primes) {
  while (in->value != 0) {
    Item *rest = new Item;
    spawn filter(in->value, in->next, rest);
    primes = put(primes, in->value);
    in = rest;
  }
  primes->value = 0;
}

int main(int n) {
  Item all, primes;
  spawn numbers(&all, n);
  spawn sieve(&all, &primes);
  int count = 0;
  Item *at = &primes;
  while (at->value != 0) {
    cout << at->value << " ";
    count++;
    at = at->next;
  }
  cout << endl;
  return count;
}
