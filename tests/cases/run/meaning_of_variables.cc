// A name means the latest variable of that name whose scope is open. In its own start value, length and arguments a variable is not yet known.
const int n = 3;
class Box {
public:
  int held;
  Box(int k) { held = k; }
};
int parameter(int n) {
  int seen = n;
  {
    int n = n * 10;
    seen = seen * 100 + n;
    n = 7;
  }
  return seen * 100 + n;
}
int length() {
  int n[n];
  n[0] = 4;
  n[2] = 6;
  return n[0] * 100 + n[1] * 10 + n[2];
}
int main() {
  cout << "constant " << n << endl;
  int n = n + 1;
  cout << "variable " << n << endl;
  cout << "parameter " << parameter(5) << endl;
  cout << "length " << length() << endl;
  int x = 1, y = x + 1, z = y * 10 + x;
  cout << "names of one line " << z << endl;
  {
    int x = x + 1;
    {
      int x = x + 1;
      cout << "blocks " << x;
    }
    cout << " " << x;
  }
  cout << " " << x << endl;
  {
    x = 20;
    int x;
    x = 30;
    y = x;
  }
  cout << "before and behind " << x << " " << y << endl;
  if (x) { int x = 40; x++; } else { int x = 50; x++; }
  while (y > 28) { int x = y; y = x - 1; }
  cout << "branches " << x << " " << y << endl;
  Box b(1);
  {
    Box b(b.held + 1);
    cout << "arguments " << b.held;
  }
  cout << " " << b.held << endl;
  Box Box(9);
  int parameter = Box.held;
  cout << "names of a class and of a function " << Box.held << " " << parameter << endl;
  sync int s, t;
  par {
    { int x = x + 5; s = x; }
    { sync int s; s = 6; t = s * 10 + x; }
  }
  cout << "parts " << s << " " << t << endl;
  return x;
}
