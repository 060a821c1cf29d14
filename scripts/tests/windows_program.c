// Live blocks of hundreds of sizes that grow and fall at random; what the first letters of its words are for is said below.
#include <fcntl.h>
#include <signal.h>
#include <stdlib.h>
#include <string.h>
#include <unistd.h>

static char *live[30000];

// so many requests that are freed at once: 13 bytes of a timeline each
static void churn(long times) {
  for (long i = 0; i < times; i++) free(malloc(16000));
}

// how often the program was run in this folder before
static int turn(void) {
  char seen[100];
  int file = open("turns", O_RDWR | O_CREAT | O_APPEND, 0600), number = read(file, seen, sizeof seen);
  if (write(file, "x", 1) != 1) exit(2);
  close(file);
  return number;
}

static int has(int words, char **word, char letter) {
  for (int i = 1; i < words; i++)
    if (*word[i] == letter) return 1;
  return 0;
}

int main(int words, char **word) {
  unsigned long seed = 1, number = 0, most = 1000;
  int before = turn();
  for (long i = 0; i < 400000; i++) {
    seed = seed * 6364136223846793005UL + 1442695040888963407UL;
    if (i % 50000 == 0) most = 1000 + (seed >> 40) % 29000;
    if (number && (seed >> 33) % 100 < (number < most ? 40 : 60)) {
      unsigned long k = (seed >> 20) % number;
      free(live[k]), live[k] = live[--number];
    } else if (number < 30000) {
      live[number++] = malloc((seed >> 24) % 9 ? (seed >> 24) % 911 : (seed >> 24) % 33 * 500);
    }
    if (i == 200000) churn(has(words, word, 'l') ? 5200000 : 1);             // long
    if (i == 250000 && has(words, word, 'd')) churn(before);                 // differs
    if (i == 200000 && has(words, word, 'f') && !fork()) return malloc(5001) == NULL;
    if (i == 390000 && has(words, word, 'k')) kill(getpid(), SIGKILL);
  }
  return has(words, word, 's');  // a status
}
