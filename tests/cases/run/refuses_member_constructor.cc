class C { C(int a) ; };
