int main() { if a; }
