int main() { int a[2] = 1; }
