int main() { parfor (i = 0; i < 3; i++) ; }
