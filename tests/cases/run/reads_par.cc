int main() { par { a = 1; { } par { } } }
