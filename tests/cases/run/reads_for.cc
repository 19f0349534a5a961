int main() { for (int i = 0, j; i < 3; i++) ; for (;;) ; for (i = 0; ; f()) { } }
