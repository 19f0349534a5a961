// A stencil: a rod that is cold at one end and hot at the other, cut into strips, each on a processor of its own. In
// each step a place takes the mean of its two neighbours. At the border of a strip the neighbour is read from the next
// processor, as soon as it is there.
// Ints: none. Answer: 29187, the sum of all places after eight steps. The places are printed.
const int STRIPS = 4;
const int CELLS = 4;
const int STEPS = 8;
const int HOT = 16000;

global class Strip {
public:
  sync int at[(STEPS + 1) * CELLS];
  Strip *global sync left;
  Strip *global sync right;
  // The place beside the strip, after so many steps.
  int outside(Strip *global other, int step, int cell, int border) {
    if (other == NULL) return border;
    return other->at[step * CELLS + cell];
  }
  int neighbour(int step, int cell) {
    if (cell < 0) return outside(left, step, CELLS - 1, 0);
    if (cell == CELLS) return outside(right, step, 0, HOT);
    return at[step * CELLS + cell];
  }
  void run() {
    for (int i = 0; i < CELLS; i++) at[i] = 0;
    for (int step = 0; step < STEPS; step++)
      parfor (int i = 0; i < CELLS; i++)
        at[(step + 1) * CELLS + i] = (neighbour(step, i - 1) + neighbour(step, i + 1)) / 2;
  }
};

int main() {
  Strip *global strip[STRIPS];
  for (int i = 0; i < STRIPS; i++) strip[i] = new Strip();
  strip[0]->left = NULL;
  for (int i = 1; i < STRIPS; i++) {
    strip[i]->left = strip[i - 1];
    strip[i - 1]->right = strip[i];
  }
  strip[STRIPS - 1]->right = NULL;
  parfor (int i = 0; i < STRIPS; i++) strip[i]->run();
  int sum = 0;
  for (int i = 0; i < STRIPS; i++)
    for (int k = 0; k < CELLS; k++) {
      int last = strip[i]->at[STEPS * CELLS + k];
      cout << last << " ";
      sum += last;
    }
  cout << endl;
  return sum;
}
