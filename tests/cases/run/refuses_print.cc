int main() { cout << 1 < 2; }
