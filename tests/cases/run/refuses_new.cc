int main() { p = new [2]; }
