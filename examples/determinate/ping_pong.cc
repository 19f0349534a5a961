// Two threads that take turns, each waiting for what the other one wrote last.
const int TURNS = 10;

void play(sync int *mine, sync int *others, int add) {
  for (int i = 0; i < TURNS; i++) mine[i + 1] = others[i] + add;
}

int main() {
  sync int ping[11], pong[11];
  par {
    play(ping, pong, 1);
    play(pong, ping, 100);
    { ping[0] = 0; pong[0] = 0; }
  }
  for (int i = 0; i <= TURNS; i++) cout << ping[i] << "/" << pong[i] << " ";
  cout << endl;
  return ping[TURNS] + pong[TURNS];
}
