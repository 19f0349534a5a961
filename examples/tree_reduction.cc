// Reduction over a tree of processors: each node is a processor object, which adds its own number to the sums of its
// two children.
// Ints: none. Answer: 1240, the sum of the squares from 1 to 15.
const int NODES = 15;

global class Node {
public:
  int own;
  Node *global sync left;
  Node *global sync right;
  Node(int k) { own = k * k; }
  int sum() {
    if (left == NULL) return own;
    sync int a, b;
    par {
      a = left->sum();
      b = right->sum();
    }
    return own + a + b;
  }
};

int main() {
  Node *global node[NODES + 1];
  for (int k = 1; k <= NODES; k++) node[k] = new Node(k);
  parfor (int k = 1; k <= NODES; k++) {
    if (2 * k < NODES) {
      node[k]->left = node[2 * k];
      node[k]->right = node[2 * k + 1];
    } else {
      node[k]->left = NULL;
      node[k]->right = NULL;
    }
  }
  int sum = node[1]->sum();
  cout << "sum " << sum << endl;
  return sum;
}
