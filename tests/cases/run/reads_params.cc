int f(int a, sync int b, C *global c) { }
