int main() { while (a)  }}
