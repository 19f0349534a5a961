class C { } int main() { }
