int main() { a++; ++a; p[1]--; --p->a; }
