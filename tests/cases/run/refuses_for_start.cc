int main() { for (return; ; ) ; }
