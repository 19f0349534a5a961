int f(int a, ) { }
