#include <iostream.h>
// a ring of processor objects
global class Cell {
public:
  int own;
  Cell *global sync next;
  Cell(int k) { own = k; }
  int pass(int hops, int sum) {
    if (hops == 0) return sum;
    return next->pass(hops - 1, sum + own);
  }
};
int main(int hops) {
  Cell *global c[4];
  for (int i = 0; i < 4; i++) c[i] = new Cell(i + 1);
  par { c[0]->next = c[1]; c[1]->next = c[2]; c[2]->next = c[3]; c[3]->next = c[0]; }
  int s = c[0]->pass(hops, 0); /* ten hops: 1 2 3 4 1 2 3 4 1 2 */
  cout << "sum " << s << endl;
  return s;
}
