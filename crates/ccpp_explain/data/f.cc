int main() {
  cout << "tab:	" @;
}
