// A spawned thread may still wait when main returns, and is then left blocked; one that main waits for is not.
global class Cell {
public:
  sync int here;
  int wait(int more) { return here + more; }
};

int main() {
  Cell *global full = new Cell();
  Cell *global empty = new Cell();
  sync int got;
  spawn empty->wait(1);
  par {
    got = full->wait(2);
    full->here = 5;
  }
  cout << got << endl;
  return got;
}
