int main() { while (1) { par { break; } } }
