int main() { if (a) ; else if (b) { } else ; }
