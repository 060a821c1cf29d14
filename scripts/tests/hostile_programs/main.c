#include "hostile.h"

extern const struct program __start_programs[], __stop_programs[];

int main(int words, char **word) {
  const char *name = words > 1 ? word[1] : "";
  for (const struct program *each = __start_programs; each < __stop_programs; each++)
    if (!strcmp(each->name, name)) return each->run() || write(1, "done\n", 5) != 5;
  for (const struct program *each = __start_programs; each < __stop_programs && words < 2; each++) puts(each->name);
  return 99;
}
