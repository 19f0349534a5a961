class C { int a = 1; };
