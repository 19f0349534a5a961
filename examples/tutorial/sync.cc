// Sync variables: who reads one waits until it is assigned. So these four statements run in the order that their values
// ask for.
int main() {
  sync int a, b, c, d;
  par {
    d = b * c;
    c = a + 2;
    b = a + 1;
    a = 5;
  }
  cout << a << " " << b << " " << c << " " << d << endl;
  return d;
}
