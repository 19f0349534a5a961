int main() { f(1, g(2), h()); }
