// The value of each constant, before and behind its declaration, and as a length.
const int one = 1;
const int two = one + one;
const int least = -9223372036854775807 - 1;
const int most = 9223372036854775807;
const int rest = least % -1;
const int cut = -7 / two;
const int left = 100 - 10 - 1 + 2;
const int mixed = 2 + 3 * 4 - (5 - 6) * -(7 % 4);
const int quotients = 7 / 2 * 2 % 4;
class Has {
public:
  int three;
  int a[two * two];
  Has(int one) { three = one * 10 + behind; a[0] = two2; a[3] = least; }
};
const int two2 = 22;
int main() {
  cout << one << " " << two << " " << two2 << " " << behind << endl;
  cout << least << " " << most << " " << rest << endl;
  cout << cut << " " << left << " " << mixed << " " << quotients << endl;
  int a[quotients];
  a[quotients - 1] = one;
  int two = two * 2;
  cout << a[1] << " " << two << endl;
  sync int *p = new sync int[two2];
  p[two2 - 1] = most;
  Has h(4);
  cout << p[21] << " " << h.three << " " << h.a[0] << " " << h.a[3] << endl;
  return behind;
}
const int behind = two2 / two + 2;
