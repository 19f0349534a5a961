int main() { ; else ; }
