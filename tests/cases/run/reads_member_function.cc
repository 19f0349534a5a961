class C { atomic void f() { } int *g() { } };
