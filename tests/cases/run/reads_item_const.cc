const int N = 2 + 3; int main() { }
