// CWE-416, use after free: a list is freed while it is walked.
// heap: always: load of 8 bytes, 0 bytes into a block of 16 bytes that was freed
#include <stdlib.h>

struct node { struct node *next; long value; };

int main(void) {
  struct node *head = NULL;
  for (int i = 0; i < 20; i++) {
    struct node *volatile node = malloc(sizeof *node);
    *node = (struct node){head, i};
    head = node;
  }
  for (struct node *volatile node = head; node; node = node->next) free(node);  // WRONG
  return 0;
}
