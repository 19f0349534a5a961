int main() { a = ((b + 1) ; }
