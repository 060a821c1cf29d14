// glibc's own heap, with GLIBC_TUNABLES=glibc.mem.tagging=3 in the environment.
#include <malloc.h>
#include <stdlib.h>
static char *the_malloc(size_t size) { return malloc(size); }
static char *the_calloc(size_t size) { return calloc(1, size); }
static char *the_memalign(size_t alignment, size_t size) { return memalign(alignment, size); }
static void the_free(char *at) { free(at); }
static char *the_realloc(char *at, size_t size) { return realloc(at, size); }
static void start(void) {}
#include "driver.h"
