int main() { a = int; }
