global class C { }; struct D { int a; }; int main() { }
