// Merge sort: two halves are sorted side by side, and merged as they come: the merge of two lists begins before they
// are whole.
// Ints: none. Answer: 16, how many numbers are printed, in order.
const int N = 16;

class Item {
public:
  sync int value;
  Item *sync next;
};

// A list ends with an item that has no next one.
void merge(Item *a, Item *b, Item *out) {
  while (a->next != NULL || b->next != NULL) {
    int from_a = b->next == NULL;
    if (a->next != NULL && b->next != NULL) from_a = a->value <= b->value;
    if (from_a) {
      out->value = a->value;
      a = a->next;
    } else {
      out->value = b->value;
      b = b->next;
    }
    Item *more = new Item;
    out->next = more;
    out = more;
  }
  out->next = NULL;
}

void sort(int from, int to, Item *out) {
  if (to - from == 1) {
    Item *end = new Item;
    out->value = (from * 37 + 11) % 101;
    out->next = end;
    end->next = NULL;
    return;
  }
  int middle = (from + to) / 2;
  Item a, b;
  par {
    sort(from, middle, &a);
    sort(middle, to, &b);
    merge(&a, &b, out);
  }
}

int main() {
  Item sorted;
  spawn sort(0, N, &sorted);
  int count = 0;
  Item *at = &sorted;
  while (at->next != NULL) {
    cout << at->value << " ";
    count++;
    at = at->next;
  }
  cout << endl;
  return count;
}
