// The functions of the table in functions.h.
#include "calls.h"
#include <arpa/inet.h>
#include <dirent.h>
#include <execinfo.h>
#include <glob.h>
#include <grp.h>
#include <iconv.h>
#include <ifaddrs.h>
#include <inttypes.h>
#include <libintl.h>
#include <locale.h>
#include <math.h>
#include <mntent.h>
#include <net/if.h>
#include <netdb.h>
#include <netinet/ether.h>
#include <poll.h>
#include <pwd.h>
#include <regex.h>
#include <sched.h>
#include <semaphore.h>
#include <signal.h>
#include <spawn.h>
#include <stdio.h>
#include <sys/epoll.h>
#include <sys/eventfd.h>
#include <sys/msg.h>
#include <sys/random.h>
#include <sys/resource.h>
#include <sys/shm.h>
#include <sys/socket.h>
#include <sys/stat.h>
#include <sys/statvfs.h>
#include <sys/sysinfo.h>
#include <sys/time.h>
#include <sys/timerfd.h>
#include <sys/times.h>
#include <sys/uio.h>
#include <sys/utsname.h>
#include <sys/vfs.h>
#include <sys/wait.h>
#include <sys/xattr.h>
#include <termios.h>
#include <time.h>
#include <wchar.h>
#include <wordexp.h>

#define WIDE sizeof(wchar_t)

static inline size_t wcslen_of(const wchar_t *s) {
  size_t n = 0;
  while (s[n]) n++;
  return n;
}

static inline __attribute__((always_inline)) void touch_given(const void *at, size_t size, int store, struct caller from) {
  if (at) touch(at, size, store, from);
}
static inline __attribute__((always_inline)) void touch_text(const char *at, int store, struct caller from) {
  if (at) touch(at, length(at, ENDLESS) + 1, store, from);
}
static inline __attribute__((always_inline)) void touch_wide(const wchar_t *at, int store, struct caller from) {
  if (at) touch(at, (wcslen_of(at) + 1) * WIDE, store, from);
}

// of the first so many bytes of several pieces
static NOT_INLINE void touch_pieces(const struct iovec *pieces, size_t number, size_t left, int store, struct caller from) {
  for (size_t i = 0; i < number && left; i++) {
    size_t size = pieces[i].iov_len < left ? pieces[i].iov_len : left;
    touch(pieces[i].iov_base, size, store, from);
    left -= size;
  }
}

static NOT_INLINE void touch_message(const struct msghdr *message, size_t size, struct caller from) {
  touch(message, sizeof *message, 1, from);
  touch_given(message->msg_name, message->msg_namelen, 1, from);
  touch_given(message->msg_control, message->msg_controllen, 1, from);
  touch_pieces(message->msg_iov, message->msg_iovlen, size, 1, from);
}

static inline size_t smaller(size_t one, size_t other) { return one < other ? one : other; }
#define SMALLER(one, other) smaller(one, other)
#define IN(at, size) touch_given(at, size, 0, CALLER);
#define OUT(at, size) touch_given(at, size, 1, CALLER);
#define IN_ARRAY(at, number) touch_given(at, product(number, sizeof *(at)), 0, CALLER);
#define OUT_ARRAY(at, number) touch_given(at, product(number, sizeof *(at)), 1, CALLER);
#define TEXT(at) touch_text(at, 0, CALLER);
#define OUT_TEXT(at) touch_text(at, 1, CALLER);
#define WIDE_TEXT(at) touch_wide(at, 0, CALLER);
#define OUT_WIDE_TEXT(at) touch_wide(at, 1, CALLER);
#define IN_PIECES(at, number, size) touch_pieces(at, number, size, 0, CALLER);
#define OUT_PIECES(at, number, size) touch_pieces(at, number, size, 1, CALLER);
#define OUT_MESSAGE(at, size) touch_message(at, size, CALLER);
#define IN_MESSAGE(at) IN(at, sizeof *(at)) IN((at)->msg_name, (at)->msg_namelen) IN((at)->msg_control, (at)->msg_controllen)
// an address and its size, of which the call says the new one
#define ROOM(at, size) IN(size, sizeof *(size)) socklen_t room = at && size ? *size : 0;
#define OUT_ADDRESS(at, size) OUT(at, at && size ? smaller(room, *size) : 0) OUT(size, sizeof *(size))
#define ADDRESS_SIZE(family) (family == AF_INET ? 4 : family == AF_INET6 ? 16 : 0)

#define FUNCTION(type, name, parameters, arguments, loads, done, stores) \
  SHOWN type name parameters { \
    REAL(name); \
    loads \
    type n = real arguments; \
    if (done) { \
      stores \
    } \
    return n; \
  }
#include "functions.h"
