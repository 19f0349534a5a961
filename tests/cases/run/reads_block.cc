int main() { { int a; ; { } } }
