class C { atomic int f ; };
