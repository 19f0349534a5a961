int main() { a = + b; }
