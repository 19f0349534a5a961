int main() { p = new int; q = new sync int[2]; r = new C; s = new C(1, 2); }
