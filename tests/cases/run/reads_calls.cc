int main() { f(); a.f(1); p->q[2].g(1, 2); this->f(); (p)->f(); }
