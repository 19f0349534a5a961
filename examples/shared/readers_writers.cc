// Readers and writers with a lock: the two numbers of the record belong together. Both functions are atomic, so no
// reader comes between the two writes.
// Ints: none. Breaks AtomicUsed. Answer: 0, how many readers saw numbers that do not belong together. What they saw is
// not fixed, so it is not printed.
const int READERS = 4;
const int WRITES = 6;

class Record {
public:
  int x;
  int y;
  int wrong;
  atomic void write(int n) {
    x = n;
    y = -n;
  }
  atomic void look() { wrong = wrong + (x + y != 0); }
};

int main() {
  Record record;
  par {
    for (int k = 1; k <= WRITES; k++) record.write(k);
    for (int k = 1; k <= WRITES; k++) record.write(100 * k);
    parfor (int i = 0; i < READERS; i++)
      for (int k = 0; k < WRITES; k++) record.look();
  }
  cout << record.wrong << " wrong" << endl;
  return record.wrong;
}
