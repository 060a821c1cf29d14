// Copies whose two places overlap: overlaps NAME. `right` has copies that may do so, and some that don't.
#include <stdio.h>
#include <stdlib.h>
#include <string.h>
#include <wchar.h>

static char *block;
static wchar_t *wide;
static volatile size_t five = 5;
static volatile long kept;

#define USES(USE) \
  USE(memcpy, memcpy(block, block + 2, five)) USE(memcpy_up, memcpy(block + 2, block, five)) USE(mempcpy, mempcpy(block, block + 4, five)) \
  USE(strcpy, strcpy(block, block + 2)) USE(strcpy_itself, strcpy(block, block + five - 5)) USE(stpcpy, stpcpy(block + 3, block)) \
  USE(strcat, strcat(block, block + 3)) USE(strncpy, strncpy(block + 1, block, five)) USE(strncat, strncat(block, block + 2, 7)) \
  USE(wcscpy, wcscpy(wide + 1, wide)) USE(wmemcpy, wmemcpy(wide, wide + 1, five))

#define NAME(name, use) puts(#name);
#define TRY(name, use) \
  if (!strcmp(kind, #name)) return kept = (long)(use), 0;

int main(int words, char **word) {
  const char *kind = words > 1 ? word[1] : "";
  if (!*kind) {
    USES(NAME)
    return 0;
  }
  block = calloc(1, 64), wide = calloc(16, sizeof *wide);
  strcpy(block, "12345678"), wcscpy(wide, L"1234");
  USES(TRY)
  memmove(block, block + 2, five), memcpy(block, block + five, five), memcpy(block, block + five - 5, five);
  strcpy(block + 9, block), strncpy(block + 20, block, five), wmemmove(wide, wide + 1, five);
  return kept = 0;
}
