// Wrong uses of libc, each with a block of 8 bytes (the table of docs/FAULTS.md): misuses NAME. Without a name their names are printed.
#define _GNU_SOURCE
#include <arpa/inet.h>
#include <fcntl.h>
#include <iconv.h>
#include <poll.h>
#include <regex.h>
#include <signal.h>
#include <stdio.h>
#include <stdlib.h>
#include <string.h>
#include <sys/random.h>
#include <sys/socket.h>
#include <sys/times.h>
#include <sys/uio.h>
#include <sys/utsname.h>
#include <time.h>
#include <unistd.h>
#include <wchar.h>

static char *block;  // eight letters, with no end
static wchar_t *wide;
static char room[4096];
static int ends[2];
static volatile long kept;           // else the compiler leaves calls out whose result nobody needs
static volatile size_t negative = -2, nine = 9, three = 3;

static int file_of(const char *text) {
  FILE *file = tmpfile();
  fputs(text, file), fflush(file), rewind(file);
  return dup(fileno(file));
}
static FILE *stream_of(const char *text) { return fdopen(file_of(text), "r"); }
static int compare(const void *left, const void *right) { return *(const char *)left - *(const char *)right; }
static int received(void) { return socketpair(AF_UNIX, SOCK_DGRAM, 0, ends), write(ends[1], "123456789", 9), ends[0]; }
static struct msghdr *message(void) {
  static struct iovec piece;
  static struct msghdr whole = {.msg_iov = &piece, .msg_iovlen = 1};
  piece = (struct iovec){block, 9};
  return &whole;
}
static long converted(void) {
  char from[] = "123456789", *in = from, *out = block;
  size_t left = 9, most = 9;
  return iconv(iconv_open("UTF-8", "ISO-8859-1"), &in, &left, &out, &most);
}
static long matched(void) {
  static regex_t pattern;
  regcomp(&pattern, "(a)(b)", REG_EXTENDED);
  return regexec(&pattern, "ab", three, (regmatch_t *)block, 0);
}

#define USES(USE) \
  USE(memcpy, memcpy(block, room, nine)) USE(memcpy_overlap, memcpy(block, block + 2, three + 1)) USE(memcpy_size, memcpy(block, room, negative)) \
  USE(memmove, memmove(block, room, nine)) USE(memset, memset(block, 1, nine)) USE(memset_size, memset(block + 4, 0, negative)) \
  USE(memcmp, memcmp(block, "no", nine)) USE(memcmp_size, memcmp(block + 4, block, negative)) USE(memchr, memchr(block, 'z', 16)) \
  USE(memrchr, memrchr(block, 'z', nine)) USE(rawmemchr, (long)rawmemchr(block, 0)) USE(memmem, memmem(block, nine, "zz", 2)) USE(strlen, strlen(block)) \
  USE(strcpy, strcpy(block, "12345678")) USE(strcpy_overlap, (block[7] = 0, strcpy(block + 1, block + 2), strcpy(block + 3, block + 2))) \
  USE(strncpy, strncpy(block, "a", nine)) USE(strcat, (block[3] = 0, strcat(block, "12345"))) USE(strncat, (block[3] = 0, strncat(block, "12345", 5))) \
  USE(strcmp, strcmp(block, "abcdefgh")) USE(strchr, strchr(block, 'z')) USE(strstr, strstr(block, "zz")) USE(strcasestr, strcasestr(block, "ZZ")) \
  USE(strdup, strdup(block)) USE(strxfrm, strxfrm(block, "12345678", 99)) USE(strtol, (memset(block, '1', 8), strtol(block, NULL, 10))) \
  USE(wcscpy, wcscpy(wide, L"ab")) USE(wcslen, wcslen(wide)) USE(wcsncat, (wide[1] = 0, wcsncat(wide, L"bc", 2))) USE(mbstowcs, mbstowcs(wide, "ab", 3)) \
  USE(wcstombs, wcstombs(block, L"12345678", 9)) USE(iconv, converted()) USE(sprintf, sprintf(block, "%s", "12345678")) \
  USE(snprintf, snprintf(room, 99, "%s", block)) USE(sscanf, sscanf("123456789", "%s", block)) USE(fgets, fgets(block, 99, stream_of("123456789"))) \
  USE(fgetws, fgetws(wide, 9, stream_of("12"))) USE(fread, fread(block, 1, 9, stream_of("123456789"))) USE(read, read(file_of("123456789"), block, nine)) \
  USE(recvfrom, recvfrom(received(), block, nine, 0, NULL, NULL)) USE(recvmsg, recvmsg(received(), message(), 0)) \
  USE(sendto, sendto(received(), block, nine, 0, NULL, 0)) USE(poll, poll((struct pollfd *)block, nine - 7, 0)) \
  USE(inet_ntop, inet_ntop(AF_INET, "\x7f\0\0\1", block, 16)) USE(getrandom, getrandom(block, nine, 0)) USE(regexec, matched()) \
  USE(asctime_r, asctime_r(&(struct tm){.tm_mday = 1}, block)) USE(localtime_r, localtime_r(&(time_t){0}, (struct tm *)block)) \
  USE(times, times((struct tms *)block)) USE(sigaltstack, sigaltstack(NULL, (stack_t *)block)) USE(qsort, (qsort(block, nine, 1, compare), 0))

#define NAME(name, use) puts(#name);
#define TRY(name, use) \
  if (!strcmp(kind, #name)) return kept = (long)(use), 0;

int main(int words, char **word) {
  const char *kind = words > 1 ? word[1] : "";
  if (!*kind) {
    USES(NAME)
    return 0;
  }
  block = malloc(8);
  wide = (wchar_t *)block;
  memcpy(block, "abcdefgh", 8);
  if (kind[0] == 'w') wide[0] = wide[1] = L'a';
  USES(TRY)
  return 2;
}
