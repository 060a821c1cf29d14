// An error, and then an end of the kind that the word says.
#include <signal.h>
#include <stdlib.h>
#include <string.h>
#include <sys/wait.h>
#include <unistd.h>

static void handle(int number) { exit(number - SIGUSR1); }

int main(int words, char **word) {
  const char *kind = words > 1 ? word[1] : "";
  char *volatile block = malloc(50);
  free(block);
  if (strcmp(kind, "right")) block[1] = 2;
  if (!strcmp(kind, "_exit")) _exit(0);
  if (!strcmp(kind, "quick_exit")) quick_exit(0);
  if (!strcmp(kind, "abort")) abort();
  if (!strcmp(kind, "kill")) raise(SIGKILL);
  if (!strcmp(kind, "exec")) execlp("true", "true", (char *)NULL);
  if (!strcmp(kind, "handler")) signal(SIGUSR1, handle), raise(SIGUSR1);
  if (!strcmp(kind, "vfork")) {  // the child's end is not the program's
    if (!vfork()) _exit(0);
    raise(SIGKILL);
  }
  if (!strcmp(kind, "wait") || !strcmp(kind, "right")) {
    if (words > 2) signal(SIGTERM, SIG_IGN);
    if (write(1, "waiting\n", 8) == 8) sleep(60);
  }
  return 0;
}
