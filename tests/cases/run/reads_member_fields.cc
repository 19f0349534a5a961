class C { int a, *b, c[2]; sync int d; C *global sync e; };
