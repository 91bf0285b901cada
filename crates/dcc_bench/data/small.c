#include <stdint.h>
int a; /* no token */ int f(void) { return a+++010; }
