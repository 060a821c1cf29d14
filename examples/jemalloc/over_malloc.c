/* A libjemalloc.so.2 for recording a program that calls mallocx and its like: over the C library's malloc, which profile_program follows.
   cc -O2 -fPIC -shared -Wl,-soname,libjemalloc.so.2 over_malloc.c -o DIR/libjemalloc.so.2; LD_LIBRARY_PATH=DIR profile_program PROGRAM .. */
#include <malloc.h>
#include <stdlib.h>
#include <string.h>
static void *got(size_t n, int flags) {
  size_t align = (size_t)1 << (flags & 63);
  void *p = align > 16 ? aligned_alloc(align, n) : malloc(n);
  if (p && flags & 64) memset(p, 0, n);
  return p;
}
void *mallocx(size_t n, int flags) { return got(n, flags); }
void *rallocx(void *p, size_t n, int flags) { (void)flags; return realloc(p, n); }
size_t xallocx(void *p, size_t n, size_t extra, int flags) { (void)n, (void)extra, (void)flags; return malloc_usable_size(p); }
size_t sallocx(const void *p, int flags) { (void)flags; return malloc_usable_size((void *)p); }
void dallocx(void *p, int flags) { (void)flags; free(p); }
void sdallocx(void *p, size_t n, int flags) { (void)n, (void)flags; free(p); }
size_t nallocx(size_t n, int flags) { (void)flags; return n; }
int mallctl(const char *a, void *b, size_t *c, void *d, size_t e) { (void)a, (void)b, (void)c, (void)d, (void)e; return 2; }
void malloc_stats_print(void (*w)(void *, const char *), void *o, const char *s) { (void)w, (void)o, (void)s; }
