const int N = ; int main() { }
