// Boxes on processors of their own, which many threads read and each of which one thread fills.
global class Box {
public:
  sync int value[4];
};

int main(int boxes) {
  Box *global box[6];
  for (int i = 0; i < boxes; i++) box[i] = new Box();
  sync int sums[24];
  par {
    parfor (int i = 0; i < boxes * 4; i++) {
      int sum = 0;
      for (int k = 0; k < boxes; k++) sum += box[k]->value[i % 4];
      sums[i] = sum + i;
    }
    parfor (int k = 0; k < boxes; k++)
      for (int x = 0; x < 4; x++) box[k]->value[x] = 10 * k + x;
  }
  int total = 0;
  for (int i = 0; i < boxes * 4; i++) total += sums[i];
  cout << total << endl;
  return total;
}
