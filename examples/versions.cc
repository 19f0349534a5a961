// Readers and writers without locks: each writer makes a new version, and the readers wait for the version that they
// want. A version is two numbers that belong together, and no reader sees one without the other.
// (shared/readers_writers.cc does it with a lock.)
// Ints: none. Answer: 0, how many readers saw numbers that do not belong together.
const int VERSIONS = 6;
const int READERS = 4;

class Version {
public:
  int x;
  int y;
  Version(int n) {
    x = n;
    y = -n;
  }
};

int main() {
  Version *sync version[VERSIONS];
  sync int wrong[READERS * VERSIONS];
  par {
    parfor (int reader = 0; reader < READERS; reader++)
      for (int k = 0; k < VERSIONS; k++) {
        Version *seen = version[k];
        wrong[reader * VERSIONS + k] = seen->x + seen->y != 0;
      }
    parfor (int k = 0; k < VERSIONS; k++) version[k] = new Version(10 * k);
  }
  int sum = 0;
  for (int i = 0; i < READERS * VERSIONS; i++) sum += wrong[i];
  cout << sum << " wrong" << endl;
  return sum;
}
