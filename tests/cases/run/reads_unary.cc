int main() { a = - ! * & b; c = - -d; }
