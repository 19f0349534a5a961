int main() { par { int a; } }
