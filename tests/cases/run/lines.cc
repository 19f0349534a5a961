int main() {
  cout << 1 << endl;

  cout << 9223372036854775807
    * 2;
  return 3;
}
