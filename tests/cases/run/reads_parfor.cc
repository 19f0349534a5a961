int main() { parfor (int i = 0; i < 3; i++) a[i] = i; }
