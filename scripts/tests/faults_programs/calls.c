// A call of libc that loads or stores beyond a block of 8 bytes, or of a freed one: calls NAME. `right` makes right calls of all kinds.
#define _GNU_SOURCE
#include <dirent.h>
#include <fcntl.h>
#include <limits.h>
#include <stdarg.h>
#include <stdio.h>
#include <stdlib.h>
#include <string.h>
#include <strings.h>
#include <sys/stat.h>
#include <sys/uio.h>
#include <time.h>
#include <unistd.h>
#include <wchar.h>

static char *block;  // eight letters, with no end
static wchar_t *wide;
static char room[4096];
static FILE *none;
static volatile long kept;  // else the compiler leaves calls out whose result nobody needs

static int list(int (*print)(const char *, va_list), const char *format, ...) {
  va_list values;
  va_start(values, format);
  int n = print(format, values);
  va_end(values);
  return n;
}
static int compare(const void *left, const void *right) { return *(const char *)left - *(const char *)right; }
static int file_of(const char *text) {
  FILE *file = tmpfile();
  fputs(text, file), fflush(file), rewind(file);
  return dup(fileno(file));
}
static FILE *stream_of(const char *text) { return fdopen(file_of(text), "r"); }

#define CALLS(CALL) \
  CALL(memcpy, memcpy(block, room, 9)) CALL(memmove, memmove(block, room, 9)) CALL(memset, memset(block, 1, 9)) \
  CALL(mempcpy, mempcpy(block, room, 9)) CALL(memcmp, memcmp(block, "no", 9)) CALL(memcmp_early, memcmp(block, "a different text", 12)) \
  CALL(bcmp, bcmp(block, room, 9)) CALL(memchr, memchr(block, 'z', 16)) CALL(strlen, strlen(block)) CALL(strnlen, strnlen(block, 9)) \
  CALL(strcpy, strcpy(block, "12345678")) CALL(stpcpy, stpcpy(block, "12345678")) CALL(strncpy, strncpy(block, "a", 9)) \
  CALL(strcat, (block[3] = 0, strcat(block, "12345"))) CALL(strncat, (block[3] = 0, strncat(block, "12345", 5))) CALL(strcmp, strcmp(block, "abcdefgh")) \
  CALL(strncmp, strncmp(block, "abcdefgh", 12)) CALL(strcasecmp, strcasecmp(block, "ABCDEFGH")) CALL(strchr, strchr(block, 'z')) \
  CALL(strrchr, strrchr(block, 'z')) CALL(strstr, strstr(block, "zz")) CALL(strspn, strspn(block, "abcdefgh")) CALL(strpbrk, strpbrk(block, "z")) \
  CALL(strdup, strdup(block)) CALL(strndup, strndup(block, 9)) CALL(strtok, strtok(block, ",")) CALL(strtok_r, strtok_r(block, ",", &(char *){0})) \
  CALL(strsep, strsep(&(char *){block}, ",")) CALL(puts, puts(block)) CALL(fputs, fputs(block, none)) \
  CALL(printf, printf("%s\n", block)) CALL(printf_precision, printf("%d %.*s\n", 1, 9, block)) CALL(fprintf, fprintf(none, "%ld%s", 1L, block)) \
  CALL(vprintf, list(vprintf, "%c%5.2f%s\n", 'a', 1.5, block)) CALL(snprintf, snprintf(room, 99, "%s", block)) \
  CALL(snprintf_store, snprintf(block, 99, "%s", "12345678")) CALL(sprintf, sprintf(block, "%d", 12345678)) \
  CALL(sscanf, sscanf("123456789", "%s", block)) CALL(sscanf_number, sscanf("12 34", "%*d %ld", (long *)(block + 4))) \
  CALL(sscanf_text, sscanf(strcpy(room, "abc"), "%8c%s", room, block + 1) + sscanf(block, "%s", room)) \
  CALL(fscanf, fscanf(stream_of("abcdefgh"), "%s", block)) \
  CALL(strtol, (memset(block, '1', 8), strtol(block, NULL, 10))) CALL(atoi, (memset(block, '1', 8), atoi(block))) \
  CALL(strtod, (memset(block, '1', 8), strtod(block, NULL))) CALL(read, read(file_of("123456789"), block, 9)) \
  CALL(pread, pread(file_of("123456789"), block, 9, 0)) CALL(readv, readv(file_of("123456789"), &(struct iovec){block, 9}, 1)) \
  CALL(write, write(file_of(""), block, 9)) CALL(writev, writev(file_of(""), &(struct iovec){block, 9}, 1)) \
  CALL(fread, fread(block, 1, 9, stream_of("123456789"))) CALL(fwrite, fwrite(block, 1, 9, none)) \
  CALL(fgets, fgets(block, 99, stream_of("123456789"))) CALL(getcwd, getcwd(block, 99)) CALL(realpath, realpath("/usr/lib", block)) \
  CALL(time, time((time_t *)(block + 4))) CALL(localtime_r, localtime_r(&(time_t){0}, (struct tm *)block)) \
  CALL(strftime, strftime(block, 99, "%Y-%m-%d", &(struct tm){0})) CALL(stat, stat("/", (struct stat *)block)) CALL(fopen, fopen(block, "r")) \
  CALL(qsort, (qsort(block, 9, 1, compare), 0)) CALL(wcslen, wcslen(wide)) CALL(wmemset, wmemset(wide, L'a', 3)) CALL(wmemcpy, wmemcpy(wide, L"abc", 3)) \
  CALL(wcscpy, wcscpy(wide, L"ab")) CALL(wcscat, (wide[1] = 0, wcscat(wide, L"b"))) CALL(wcsncpy, wcsncpy(wide, L"a", 3))

#define NAME(name, call) puts(#name);
#define TRY(name, call) \
  if (!strcmp(kind, #name)) { \
    kept = (long)(call); \
    return 0; \
  }

static int right(void) {
  int number = 0, count = 0;
  long large;
  double real;
  char *end, text[] = "one two", letters[8] = "abcdefg", *made = strdup("made"), *word;
  block[7] = 0;
  if (printf("%s %.8s %*d %-5ld|%lc|%p %%\n", block, block, 3, 4, 5L, L'a', (void *)block) < 0) return 1;
  if (sscanf("12 -3.5 word [set]", "%d %lf %3s%n", &number, &real, letters, &count) != 3 || number != 12 || strcmp(letters, "wor") || count != 11) return 1;
  if (sscanf("77 zz", "%ld %ms", &large, &word) != 2 || large != 77 || strcmp(word, "zz")) return 1;
  if (strtol("0x1fz", &end, 16) != 31 || *end != 'z' || strtod("2.5e1,", &end) != 25 || *end != ',' || atoi("-12a") != -12 || atof("1.5") != 1.5) return 1;
  if (strtoul("18446744073709551615", NULL, 10) != ULONG_MAX || atol(" 9") != 9) return 1;
  if (strcmp(strtok(text, " "), "one") || strcmp(strtok(NULL, " "), "two") || strtok(NULL, " ")) return 1;
  strcpy(made, "a,,b");
  word = made;
  if (strcmp(strsep(&word, ","), "a") || *strsep(&word, ",") || strcmp(strsep(&word, ","), "b") || strsep(&word, ",")) return 1;
  if (wcscmp(wcscat(wcscpy((wchar_t *)room, L"ab"), L"cd"), L"abcd") || memcmp("abc", "abd", 3) >= 0 || bcmp("abc", "abc", 3)) return 1;
  qsort(letters, 3, 1, compare);
  if (strcmp(letters, "orw") || !getcwd(room, sizeof room) || time(NULL) != time(&(time_t){0}) || fopen("/no/such/file", "r")) return 1;
  return free(made), 0;
}

int main(int words, char **word) {
  const char *kind = words > 1 ? word[1] : "";
  none = fopen("/dev/null", "w");
  block = malloc(8);
  wide = (wchar_t *)block;
  memcpy(block, "abcdefgh", 8);
  if (!strcmp(kind, "right")) return right();
  if (!*kind) {
    CALLS(NAME)
    return 0;
  }
  if (kind[0] == 'w' && kind[1] != 'r') wide[0] = wide[1] = L'a';
  CALLS(TRY)
  return 2;
}
