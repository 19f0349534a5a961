class Row {
public:
  int a[3];
  int b;
  Row() { b = 4; }
};
int main() {
  Row r;
  cout << r.a[2] << r.b << endl;
  return
    r.a[3];
}
