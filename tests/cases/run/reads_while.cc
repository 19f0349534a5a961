int main() { while (a < 3) a++; }
