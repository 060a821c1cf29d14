// Errors as programs have them, with no volatile that holds the compiler back: plain KIND. One whose result nobody needs may be left out by
// the compiler.
#include <stdio.h>
#include <stdlib.h>
#include <string.h>
#include <wchar.h>

struct node { struct node *next; int value; char name[12]; };
struct record { int count; double values[4]; };

static int store_after_free(int n) {
  char *text = malloc(n);
  strcpy(text, "abc");
  free(text);
  text[0] = 'x';
  return 0;
}
static int load_after_free(int n) {
  int *number = malloc(sizeof *number);
  *number = n;
  free(number);
  return *number;
}
static int double_free(int n) {
  char *text = malloc(n);
  free(text);
  free(text);
  return 0;
}
static int store_after_end(int n) {
  char *text = malloc(n);
  text[n] = 0;
  free(text);
  return 0;
}
static int store_far_after_end(int n) {
  char *text = malloc(n);
  text[n + 20] = 1;
  free(text);
  return 0;
}
static int load_after_end(int n) {
  int *numbers = malloc(n * sizeof *numbers), found;
  for (int i = 0; i < n; i++) numbers[i] = i;
  found = numbers[n];
  free(numbers);
  return found;
}
static int store_before(int n) {
  int *numbers = malloc(n * sizeof *numbers);
  numbers[-1] = n;
  free(numbers);
  return 0;
}
static int load_before(int n) {
  int *numbers = calloc(n, sizeof *numbers), found = numbers[-1];
  free(numbers);
  return found;
}
static int loop_too_far(int n) {
  int *numbers = malloc(n * sizeof *numbers), sum = 0;
  for (int i = 0; i <= n + 3; i++) numbers[i] = i;
  for (int i = 0; i < n; i++) sum += numbers[i];
  free(numbers);
  return sum;
}
static int clear_too_far(int n) {
  char *text = malloc(n);
  memset(text, 0, n + 8);
  free(text);
  return 0;
}
static int copy_too_far(int n) {
  char *text = malloc(4), from[32] = "0123456789abcdefghijkl";
  memcpy(text, from, n);
  free(text);
  return 0;
}
static int text_too_long(int n) {
  char *text = malloc(n);
  strcpy(text, "a text that is longer than the block");
  puts(text);
  free(text);
  return 0;
}
static int joined_too_long(int n) {
  char *text = malloc(n);
  strcpy(text, "0123456789");
  strcat(text, "0123456789");
  free(text);
  return 0;
}
static int printed_too_long(int n) {
  char *text = malloc(8);
  sprintf(text, "number %d", n * 1000);
  free(text);
  return 0;
}
static int text_without_end(int n) {
  char *text = malloc(n);
  memset(text, 'a', n);
  int length = strlen(text);
  free(text);
  return length > n;
}
static int list_after_free(int n) {
  struct node *list = NULL;
  for (int i = 0; i < n; i++) {
    struct node *new = malloc(sizeof *new);
    *new = (struct node){list, i, "node"};
    list = new;
  }
  int sum = 0;
  for (struct node *at = list; at; at = at->next) sum += at->value, free(at);
  return sum;
}
static int member_after_free(int n) {
  struct record *record = calloc(1, sizeof *record);
  record->count = n;
  free(record);
  record->count++;
  return 0;
}
static int member_too_far(int n) {
  struct record *record = malloc(sizeof(int));
  record->values[1] = n;
  free(record);
  return 0;
}
static int stale_after_realloc(int n) {
  int *numbers = malloc(n * sizeof *numbers), *first = numbers;
  numbers = realloc(numbers, 1000 * n * sizeof *numbers);
  *first = n;
  free(numbers);
  return 0;
}
static int freed_inside(int n) {
  char *text = malloc(n);
  free(text + 4);
  return 0;
}
static int copied_after_free(int n) {
  char *text = malloc(n), to[8];
  memset(text, 'b', n);
  free(text);
  memcpy(to, text, sizeof to);
  return to[n % 8];
}
static int struct_after_free(int n) {
  struct node *node = malloc(sizeof *node), kept;
  node->value = n, node->next = NULL;
  free(node);
  kept = *node;
  return kept.value;
}
static int wide_too_long(int n) {
  wchar_t *text = malloc(n * sizeof *text);
  wmemset(text, L'a', n + 2);
  free(text);
  return 0;
}

#define KIND(name) {#name, name}
static const struct { const char *name; int (*run)(int); } KINDS[] = {
  KIND(store_after_free), KIND(load_after_free), KIND(double_free), KIND(store_after_end), KIND(store_far_after_end), KIND(load_after_end),
  KIND(store_before), KIND(load_before), KIND(loop_too_far), KIND(clear_too_far), KIND(copy_too_far), KIND(text_too_long), KIND(joined_too_long),
  KIND(printed_too_long), KIND(text_without_end), KIND(list_after_free), KIND(member_after_free), KIND(member_too_far), KIND(stale_after_realloc),
  KIND(freed_inside), KIND(copied_after_free), KIND(struct_after_free), KIND(wide_too_long),
};

int main(int words, char **word) {
  for (size_t i = 0; i < sizeof KINDS / sizeof *KINDS; i++)
    if (words < 2) puts(KINDS[i].name);
    else if (!strcmp(word[1], KINDS[i].name)) printf("%d\n", KINDS[i].run(14 + words));
  return 0;
}
