int main() { sync int x; sync int y; par { y = x + 1; x = 3; } cout << y << endl; return y; }
