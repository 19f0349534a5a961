int main() { if (a) if (b) ; else ; }
