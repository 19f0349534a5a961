// A bounded buffer: the producer is at most ROOM items ahead. Before it makes an item it waits until the one ROOM
// places before was taken.
// Ints: none. Answer: 506, the sum of the squares from 0 to 11.
const int ITEMS = 12;
const int ROOM = 3;

void produce(sync int *item, sync int *taken) {
  for (int i = 0; i < ITEMS; i++) {
    int waited = 0;
    if (i >= ROOM) waited = taken[i - ROOM];
    item[i] = i * i;
  }
}

int consume(sync int *item, sync int *taken) {
  int sum = 0;
  for (int i = 0; i < ITEMS; i++) {
    sum += item[i];
    taken[i] = 1;
  }
  return sum;
}

int main() {
  sync int item[ITEMS], taken[ITEMS];
  sync int sum;
  par {
    produce(item, taken);
    sum = consume(item, taken);
  }
  cout << "sum " << sum << endl;
  return sum;
}
