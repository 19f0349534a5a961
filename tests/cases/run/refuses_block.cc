int main() { { int a; 
