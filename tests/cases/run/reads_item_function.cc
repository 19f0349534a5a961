sync int *f(int a) { }
