int main() { for (C *p = NULL; ; ) ; for (C p; ; ) ; for (a[0] = 1; ; ) ; }
