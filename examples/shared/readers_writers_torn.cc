// Readers and writers without a lock (compare readers_writers.cc): a reader may come between the two writes.
// Ints: none. Breaks PlainMember. Answer: from 0 to 6, by the order of the threads.
const int WRITES = 6;

class Record {
public:
  int x;
  int y;
  void write(int n) {
    x = n;
    y = -n;
  }
};

int main() {
  Record record;
  int wrong = 0;
  par {
    for (int k = 1; k <= WRITES; k++) record.write(k);
    for (int k = 0; k < WRITES; k++) wrong += record.x + record.y != 0;
  }
  return wrong;
}
