// A list that one thread makes while two others walk along it.
class Node {
public:
  sync int value;
  Node *sync next;
};

void produce(Node *at, int n) {
  for (int i = 0; i < n; i++) {
    Node *more = new Node;
    at->value = i * i;
    at->next = more;
    at = more;
  }
  at->value = 0 - 1;
  at->next = NULL;
}

int sum(Node *at) {
  int total = 0;
  while (at != NULL) {
    total += at->value;
    at = at->next;
  }
  return total;
}

int length(Node *at) {
  int count = 0;
  while (at != NULL) {
    count++;
    at = at->next;
  }
  return count;
}

int main(int n) {
  Node first;
  sync int total, count;
  par {
    total = sum(&first);
    count = length(&first);
    produce(&first, n);
  }
  cout << total << " in " << count << endl;
  return total;
}
