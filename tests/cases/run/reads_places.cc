int main() { *p = 1; a[1][2] = 3; this->m = 4; (p).m = 5; f(1).m = 6; **q = 7; }
