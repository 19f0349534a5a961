int main() { int a[2], b = 1; C c(); }
