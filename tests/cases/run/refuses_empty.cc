int main() { ; ) }
