// Dining philosophers with locks, mended (compare philosophers.cc): each takes the lower-numbered of his forks first.
// So there is no circle of philosophers who wait for each other, in whatever order they come.
// Ints: none. Breaks AtomicUsed. Answer: 10, five philosophers with two meals each, in every order.
const int SEATS = 5;
const int MEALS = 2;

// A fork that is asked for while it is used is given as soon as it is laid down. No more than one philosopher can wait for it.
class Fork {
public:
  int used;
  sync int *waiting;
  atomic void take(sync int *given) {
    if (used) waiting = given;
    else {
      used = 1;
      *given = 1;
    }
  }
  atomic void lay() {
    if (waiting == NULL) used = 0;
    else {
      *waiting = 1;
      waiting = NULL;
    }
  }
};

void take(Fork *fork) {
  sync int given;
  fork->take(&given);
  int waited = given;
}

int philosopher(Fork *first, Fork *second) {
  int meals = 0;
  for (int i = 0; i < MEALS; i++) {
    take(first);
    take(second);
    meals++;
    second->lay();
    first->lay();
  }
  return meals;
}

int main() {
  Fork *fork[SEATS];
  for (int i = 0; i < SEATS; i++) fork[i] = new Fork;
  sync int meals[SEATS];
  parfor (int i = 0; i < SEATS; i++) {
    if (i == SEATS - 1) meals[i] = philosopher(fork[0], fork[i]);
    else meals[i] = philosopher(fork[i], fork[i + 1]);
  }
  int sum = 0;
  for (int i = 0; i < SEATS; i++) sum += meals[i];
  return sum;
}
