int main() { parfor (int i = 0; ; i++) ; }
