// A token ring: a station may do its work only while it has the token, and then hands it to the next one. The token
// carries a list of who worked when, as the digits of a number.
// Ints: laps, from 1 to 4. Answer for 3: 123412341234, the stations in the order in which they worked.
const int STATIONS = 4;
const int LAPS = 4;

global class Station {
public:
  int number;
  sync int token[LAPS + 1];
  Station *global sync next;
  Station(int k) { number = k; }
  void work(int laps) {
    for (int lap = 0; lap < laps; lap++) {
      int worked = token[lap] * 10 + number;
      next->token[lap + (number == STATIONS)] = worked;
    }
  }
};

int main(int laps) {
  Station *global station[STATIONS];
  for (int i = 0; i < STATIONS; i++) station[i] = new Station(i + 1);
  parfor (int i = 0; i < STATIONS; i++) station[i]->next = station[(i + 1) % STATIONS];
  par {
    parfor (int i = 0; i < STATIONS; i++) station[i]->work(laps);
    station[0]->token[0] = 0;
  }
  int worked = station[0]->token[laps];
  cout << worked << endl;
  return worked;
}
