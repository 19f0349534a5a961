// Three branches print, each a letter. In which order they do is not fixed.
int main() {
  par {
    cout << "a";
    cout << "b";
    cout << "c";
  }
  cout << endl;
  return 0;
}
