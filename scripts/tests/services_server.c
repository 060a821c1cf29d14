// services_server PORT [forks] [user] [daemon] [stubborn]: a small server for test_services.py. A connection sends a number, and it keeps so many
// blocks and answers `done`. With `forks` two workers take the connections, with `user` these are another user's where it is root, with `daemon` it
// leaves its terminal by two forks, and with `stubborn` it ignores TERM. It prints a line when it listens.
#include <arpa/inet.h>
#include <signal.h>
#include <stdio.h>
#include <stdlib.h>
#include <string.h>
#include <sys/socket.h>
#include <sys/wait.h>
#include <unistd.h>

static volatile sig_atomic_t ends;

static void end(int number) { ends = number; }

static void become_other(void) {
  if (!getuid() && (setgid(65534) || setuid(65534))) exit(4);
}

static void serve(int listening) {
  while (!ends) {
    char text[32] = "";
    int one = accept(listening, NULL, NULL);
    if (one < 0) continue;
    long got = read(one, text, sizeof text - 1);
    for (long left = atol(text); left > 0; left--) memset(malloc(left % 3 ? 777 : 1555), 1, 777);
    if (!strncmp(text, "die", 3)) exit(6);
    if (got > 0 && write(one, "done\n", 5) < 0) ends = 1;
    close(one);
  }
}

int main(int words, char **word) {
  int forks = 0, user = 0, daemon = 0, stubborn = 0, listening = socket(AF_INET, SOCK_STREAM, 0), on = 1;
  for (int k = 2; k < words; k++)
    forks |= !strcmp(word[k], "forks"), user |= !strcmp(word[k], "user"), daemon |= !strcmp(word[k], "daemon"), stubborn |= !strcmp(word[k], "stubborn");
  struct sockaddr_in place = {.sin_family = AF_INET, .sin_port = htons(atoi(word[1])), .sin_addr = {htonl(INADDR_LOOPBACK)}};
  struct sigaction action = {.sa_handler = end};
  sigaction(SIGINT, &action, NULL);
  if (stubborn) signal(SIGTERM, SIG_IGN); else sigaction(SIGTERM, &action, NULL);
  setsockopt(listening, SOL_SOCKET, SO_REUSEADDR, &on, sizeof on);
  for (int k = 0; daemon && k < 2; k++) {
    if (fork()) _exit(0);
    setsid();
  }
  usleep(100000);
  if (bind(listening, (void *)&place, sizeof place) || listen(listening, 100)) return perror("listen"), 3;
  printf("it listens at last\n"), fflush(stdout);
  pid_t workers[2];
  for (int k = 0; forks && k < 2; k++)
    if (!(workers[k] = fork())) {
      if (user) become_other();
      return serve(listening), 0;
    }
  if (!forks && user) become_other();
  if (!forks) return serve(listening), 0;
  while (!ends) pause();
  if (getenv("MTE_TEST_END")) fclose(fopen(getenv("MTE_TEST_END"), "w"));
  for (int k = 0; k < 2; k++) kill(workers[k], SIGINT), waitpid(workers[k], NULL, 0);
}
