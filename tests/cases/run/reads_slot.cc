int main() { int a[2 * 3], *b[4]; }
