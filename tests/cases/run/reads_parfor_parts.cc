int main() { parfor (int i = 0; 1; i = f(i)) { } }
