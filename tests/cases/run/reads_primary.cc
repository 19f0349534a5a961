int main() { a = 1 + NULL + this + (b) + f(1) + c; }
