int main() { ;; }
