int main() { a = b[1].c->d(2)[3]; e = NULL[0]; g = 1.x; }
