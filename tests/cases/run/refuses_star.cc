int main() { C *global global c; }
