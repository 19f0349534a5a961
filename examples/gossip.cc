// Gossip: at first each of eight parties knows one rumour. In each round it tells all that it knows to one other party:
// its neighbour in a pair, then in a square, then in a cube. After three rounds everyone knows everything. A rumour is
// a digit 1 at the party's place in a number.
// Ints: none. Answer: 8, how many parties know all rumours.
const int PARTIES = 8;
const int ROUNDS = 3;

global class Party {
public:
  sync int told[ROUNDS];
  sync int knows;
  void talk(Party *global first, Party *global second, Party *global third, int rumour) {
    first->told[0] = rumour;
    int pair = rumour + told[0];
    second->told[1] = pair;
    int square = pair + told[1];
    third->told[2] = square;
    knows = square + told[2];
  }
};

// The party at the other end of an edge of the cube.
int across(int party, int edge) {
  if (party / edge % 2 == 0) return party + edge;
  return party - edge;
}

int power(int n) {
  if (n == 0) return 1;
  return 10 * power(n - 1);
}

int main() {
  Party *global party[PARTIES];
  for (int i = 0; i < PARTIES; i++) party[i] = new Party();
  parfor (int i = 0; i < PARTIES; i++)
    party[i]->talk(party[across(i, 1)], party[across(i, 2)], party[across(i, 4)], power(i));
  int count = 0;
  for (int i = 0; i < PARTIES; i++) {
    cout << party[i]->knows << " ";
    count += party[i]->knows == 11111111;
  }
  cout << endl;
  return count;
}
