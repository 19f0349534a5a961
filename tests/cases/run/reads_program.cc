int f() { } void g() { }
