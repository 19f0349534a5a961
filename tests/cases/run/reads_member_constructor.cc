class C { C(int a, C *b) { } };
