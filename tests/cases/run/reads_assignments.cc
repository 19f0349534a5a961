int main() { a = 1; a += 1; a -= 1; a *= 1; a /= 1; a %= 1; }
