// A first program: it prints one line, and its result is the program's answer.
int main() {
  cout << "hello, " << 2 + 3 * 4 << endl;
  return 7;
}
