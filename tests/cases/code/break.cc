int main() { while (1) break; return 0; }
