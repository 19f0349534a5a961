// Producer and consumer: one thread makes a list, the other one takes its items as they come. An item is empty until it
// is produced, and the consumer waits for it.
// Ints: n, how many items are produced. Answer for 10: 385, the sum of the squares from 1 to 10.
class Item {
public:
  sync int value;
  Item *sync next;
};

void produce(Item *at, int n) {
  for (int i = 1; i <= n; i++) {
    Item *more = new Item;
    at->value = i * i;
    at->next = more;
    at = more;
  }
  at->next = NULL;
}

int consume(Item *at) {
  int sum = 0;
  while (at->next != NULL) {
    sum += at->value;
    at = at->next;
  }
  return sum;
}

int main(int n) {
  Item first;
  sync int sum;
  par {
    produce(&first, n);
    sum = consume(&first);
  }
  cout << "sum " << sum << endl;
  return sum;
}
