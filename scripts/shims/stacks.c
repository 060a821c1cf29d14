// stream.c with the stack of each request.
#define STACKS
#include "stream.c"
