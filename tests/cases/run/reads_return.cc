int main() { return; return a * b; }
