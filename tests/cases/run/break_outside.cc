int main() { break; }
