int main() { a + 1; }
