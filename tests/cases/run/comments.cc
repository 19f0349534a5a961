#include <iostream.h>
/* a */ int main() { return 0; } // b
