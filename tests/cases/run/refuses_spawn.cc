int main() { spawn a ; }
