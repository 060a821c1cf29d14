// follow.c with the stack of each request.
#define STACKS
#include "follow.c"
