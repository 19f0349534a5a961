int main() { int a = 1, b, *c = NULL; C d(1, 2), e; sync int f; }
