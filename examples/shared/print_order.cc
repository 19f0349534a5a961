// Two branches print, and which comes first is not fixed.
// Ints: none. Breaks PrintInBranch. Answer: 0, after the line ab or ba.
int main() {
  par {
    cout << "a";
    cout << "b";
  }
  cout << endl;
  return 0;
}
