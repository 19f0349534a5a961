// The worked example of both: 0 + 1 + 2 + 4 + 5.
int main() { int s; for (int i = 0; i < 10; i++) { if (i == 3) continue; if (i == 6) break; s = s + i; } return s; }
