// No error: a list of more blocks than a trace has variables.
#include <stdlib.h>

struct node { struct node *next; long value; };

int main(void) {
  struct node *head = NULL;
  for (int i = 0; i < 20000; i++) {
    struct node *node = malloc(sizeof *node);
    *node = (struct node){head, i};
    head = node;
  }
  while (head) {
    struct node *next = head->next;
    free(head);
    head = next;
  }
  return 0;
}
