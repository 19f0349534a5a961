int main() { p = (new C(1))->x; }
