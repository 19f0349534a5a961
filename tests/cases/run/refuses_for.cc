int main() { for (int i = 0; ) ; }
