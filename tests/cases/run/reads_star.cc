int main() { int *a; int *sync b; C *global c; C *global sync d; C *sync global e; }
