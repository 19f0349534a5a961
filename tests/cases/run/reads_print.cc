int main() { cout << 1 + 2 << "a" << endl << a[1]; }
