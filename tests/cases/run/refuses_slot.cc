int main() { int a[]; }
