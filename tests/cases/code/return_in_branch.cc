int main() { par { return 1; } }
