class C { public int a; };
