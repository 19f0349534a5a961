int main() { a * b; }
