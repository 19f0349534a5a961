int f() { } ;
