// stream.c, of counts alone.
#define COUNTS 1
#include "stream.c"
