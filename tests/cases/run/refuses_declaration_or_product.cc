int main() { a * 3; }
