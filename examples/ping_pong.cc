// Ping-pong: two players on processors of their own send a ball to and fro, and each adds one to it.
// Ints: none. Answer: 20, after ten hits of each.
const int HITS = 10;

global class Player {
public:
  sync int ball[HITS + 1];
  Player *global sync other;
  // A ball that is hit by the one who serves comes back as the next one.
  void play(int serves) {
    for (int i = 0; i < HITS; i++) other->ball[i + 1 - serves] = ball[i] + 1;
  }
};

int main() {
  Player *global ping = new Player();
  Player *global pong = new Player();
  ping->other = pong;
  pong->other = ping;
  ping->ball[0] = 0;
  par {
    ping->play(1);
    pong->play(0);
  }
  int hits = ping->ball[HITS];
  cout << hits << " hits" << endl;
  return hits;
}
