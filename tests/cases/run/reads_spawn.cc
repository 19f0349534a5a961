int main() { spawn f(1); spawn p->f(); }
