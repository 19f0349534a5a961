// Dining philosophers with locks: each takes the fork on his left and then the one on his right, in whatever order it
// comes. Some orders let all of them eat; in others each has one fork, and waits for the other for ever.
// Ints: none. Breaks AtomicUsed. Answer: done 10, five philosophers with two meals each; or blocked 6.
// (philosophers_in_order.cc mends it.)
const int SEATS = 5;
const int MEALS = 2;

// A fork that is asked for while it is used is given as soon as it is laid down. No more than one philosopher can wait for it.
class Fork {
public:
  int used;
  sync int *waiting;
  atomic void take(sync int *given) {
    if (used) waiting = given;
    else {
      used = 1;
      *given = 1;
    }
  }
  atomic void lay() {
    if (waiting == NULL) used = 0;
    else {
      *waiting = 1;
      waiting = NULL;
    }
  }
};

void take(Fork *fork) {
  sync int given;
  fork->take(&given);
  int waited = given;
}

int philosopher(Fork *first, Fork *second) {
  int meals = 0;
  for (int i = 0; i < MEALS; i++) {
    take(first);
    take(second);
    meals++;
    second->lay();
    first->lay();
  }
  return meals;
}

int main() {
  Fork *fork[SEATS];
  for (int i = 0; i < SEATS; i++) fork[i] = new Fork;
  sync int meals[SEATS];
  parfor (int i = 0; i < SEATS; i++) meals[i] = philosopher(fork[i], fork[(i + 1) % SEATS]);
  int sum = 0;
  for (int i = 0; i < SEATS; i++) sum += meals[i];
  return sum;
}
