// The functions of libc that are called as they are, with what each loads before, and stores after where it was done. A row:
//
//   FUNCTION(type, name, parameters, arguments, loads, done, stores)    `n` is what it returns
//
//   IN(at, size) OUT(at, size)     so many bytes; nothing where the pointer is null
//   TEXT(at) OUT_TEXT(at)          a text with its end; WIDE_TEXT(at) and OUT_WIDE_TEXT(at) of wide characters
//   IN_PIECES OUT_PIECES           of pieces of memory, their number, and the bytes in all
//
// SMALLER(a, b) is the smaller of two sizes. Its rows are those of AddressSanitizer's interceptors that take memory of their caller, and some
// more. libc.c has those that are written anew, and formats.c those with a format.
#define OF(at) sizeof *(at)
#define ALWAYS 1
#define GOOD n == 0
#define SOME n > 0
#define NOT_FAILED n >= 0
#define FOUND n != NULL

// Rows of functions of one form: a text, two, or a text and a number; a structure that is loaded, or stored, or both; and
// these after a number or a text, which says of what. TWO functions have the same row, and RESULT is where a database's go.
#define OF_TEXT(type, name) FUNCTION(type, name, (const char *s), (s), TEXT(s), ALWAYS, )
#define OF_TEXTS(type, name) FUNCTION(type, name, (const char *s, const char *t), (s, t), TEXT(s) TEXT(t), ALWAYS, )
#define OF_TEXT_AND(type, name, of) FUNCTION(type, name, (const char *s, of value), (s, value), TEXT(s), ALWAYS, )
#define OF_ONE(type, name, of) FUNCTION(type, name, (of *at), (at), IN(at, OF(at)), ALWAYS, )
#define TO(name, of) FUNCTION(int, name, (of *to), (to), , GOOD, OUT(to, OF(to)))
#define TEXT_TO(name, of) FUNCTION(int, name, (const char *s, of *to), (s, to), TEXT(s), GOOD, OUT(to, OF(to)))
#define KEY_TO(name, key, of) FUNCTION(int, name, (key what, of *to), (what, to), , GOOD, OUT(to, OF(to)))
#define VALUE_TO(type, name, of) FUNCTION(type, name, (type value, of *to), (value, to), , ALWAYS, OUT(to, OF(to)))
#define ONE_TO(name, by, of) FUNCTION(int, name, (by *from, of *to), (from, to), IN(from, OF(from)), GOOD, OUT(to, OF(to)))
#define KEY_ONE_TO(name, key, by, of) \
  FUNCTION(int, name, (key what, by *from, of *to), (what, from, to), IN(from, OF(from)), GOOD, OUT(to, OF(to)))
#define TWO(type, one, other, ...) FUNCTION(type, one, __VA_ARGS__) FUNCTION(type, other, __VA_ARGS__)
#define RESULT(of) of *to, char *room, size_t most, of **found
#define RESULTS to, room, most, found
#define OUT_FOUND OUT(to, OF(to)) OUT(found, OF(found))
#define OUT_USER OUT_FOUND OUT_TEXT(to->pw_name) OUT_TEXT(to->pw_dir) OUT_TEXT(to->pw_shell)
#define OUT_GROUP OUT_FOUND OUT_TEXT(to->gr_name)

// files
FUNCTION(ssize_t, read, (int file, void *to, size_t most), (file, to, most), , SOME, OUT(to, n))
FUNCTION(ssize_t, write, (int file, const void *from, size_t most), (file, from, most), , SOME, IN(from, n))
TWO(ssize_t, pread, pread64, (int file, void *to, size_t most, off_t at), (file, to, most, at), , SOME, OUT(to, n))
TWO(ssize_t, pwrite, pwrite64, (int file, const void *from, size_t most, off_t at), (file, from, most, at), , SOME, IN(from, n))
FUNCTION(ssize_t, readv, (int file, const struct iovec *to, int number), (file, to, number), IN_ARRAY(to, number), SOME, OUT_PIECES(to, number, n))
FUNCTION(ssize_t, writev, (int file, const struct iovec *from, int number), (file, from, number), IN_ARRAY(from, number), SOME, IN_PIECES(from, number, n))
TWO(ssize_t, preadv, preadv64, (int file, const struct iovec *to, int number, off_t at), (file, to, number, at), IN_ARRAY(to, number), SOME,
    OUT_PIECES(to, number, n))
TWO(ssize_t, pwritev, pwritev64, (int file, const struct iovec *from, int number, off_t at), (file, from, number, at),
    IN_ARRAY(from, number), SOME, IN_PIECES(from, number, n))
OF_TEXT_AND(int, creat, mode_t) OF_TEXT_AND(int, access, int) OF_TEXT_AND(int, chmod, mode_t)
OF_TEXT_AND(int, mkdir, mode_t) OF_TEXT_AND(int, truncate, off_t)
OF_TEXT(int, unlink) OF_TEXT(int, rmdir) OF_TEXT(int, remove) OF_TEXT(int, chdir)
OF_TEXT(char *, canonicalize_file_name)
OF_TEXTS(int, rename) OF_TEXTS(int, link) OF_TEXTS(int, symlink)
FUNCTION(char *, getcwd, (char *to, size_t most), (to, most), , FOUND && to, OUT_TEXT(to))
FUNCTION(char *, realpath, (const char *path, char *to), (path, to), TEXT(path), FOUND && to, OUT_TEXT(to))
FUNCTION(ssize_t, readlink, (const char *path, char *to, size_t most), (path, to, most), TEXT(path), SOME, OUT(to, n))
FUNCTION(ssize_t, readlinkat, (int folder, const char *path, char *to, size_t most), (folder, path, to, most), TEXT(path), SOME, OUT(to, n))
#if __GLIBC_PREREQ(2, 33)  // before, they were no functions of the library
TEXT_TO(stat, struct stat) TEXT_TO(lstat, struct stat) TEXT_TO(stat64, struct stat64) TEXT_TO(lstat64, struct stat64)
KEY_TO(fstat, int, struct stat) KEY_TO(fstat64, int, struct stat64)
FUNCTION(int, fstatat, (int folder, const char *path, struct stat *to, int how), (folder, path, to, how), TEXT(path), GOOD, OUT(to, OF(to)))
#endif
TEXT_TO(statfs, struct statfs) TEXT_TO(statfs64, struct statfs64) TEXT_TO(statvfs, struct statvfs)
TEXT_TO(statvfs64, struct statvfs64)
KEY_TO(fstatfs, int, struct statfs) KEY_TO(fstatfs64, int, struct statfs64) KEY_TO(fstatvfs, int, struct statvfs)
KEY_TO(fstatvfs64, int, struct statvfs64) KEY_TO(eventfd_read, int, eventfd_t) KEY_TO(tcgetattr, int, struct termios)
TWO(ssize_t, getxattr, lgetxattr, (const char *path, const char *name, void *to, size_t most), (path, name, to, most),
    TEXT(path) TEXT(name), SOME && most, OUT(to, n))
FUNCTION(ssize_t, fgetxattr, (int file, const char *name, void *to, size_t most), (file, name, to, most), TEXT(name), SOME && most, OUT(to, n))
TWO(ssize_t, listxattr, llistxattr, (const char *path, char *to, size_t most), (path, to, most), TEXT(path), SOME && most, OUT(to, n))
FUNCTION(ssize_t, flistxattr, (int file, char *to, size_t most), (file, to, most), , SOME && most, OUT(to, n))
OF_TEXT(DIR *, opendir)
FUNCTION(int, scandir, (const char *path, struct dirent ***to, int (*choose)(const struct dirent *), int (*compare)(const struct dirent **, const struct dirent **)),
         (path, to, choose, compare), TEXT(path), NOT_FAILED, OUT(to, OF(to)))
FUNCTION(int, scandir64, (const char *path, struct dirent64 ***to, int (*choose)(const struct dirent64 *), int (*compare)(const struct dirent64 **, const struct dirent64 **)),
         (path, to, choose, compare), TEXT(path), NOT_FAILED, OUT(to, OF(to)))
FUNCTION(int, glob, (const char *pattern, int how, int (*failed)(const char *, int), glob_t *to), (pattern, how, failed, to), TEXT(pattern), GOOD, OUT(to, OF(to)))
FUNCTION(int, glob64, (const char *pattern, int how, int (*failed)(const char *, int), glob64_t *to), (pattern, how, failed, to), TEXT(pattern), GOOD, OUT(to, OF(to)))
FUNCTION(int, wordexp, (const char *words, wordexp_t *to, int how), (words, to, how), TEXT(words), GOOD, OUT(to, OF(to)))
FUNCTION(int, pipe, (int to[2]), (to), , GOOD, OUT(to, 2 * sizeof *to))
FUNCTION(int, pipe2, (int to[2], int how), (to, how), , GOOD, OUT(to, 2 * sizeof *to))
TWO(int, ttyname_r, ptsname_r, (int file, char *to, size_t most), (file, to, most), , GOOD, OUT_TEXT(to))
FUNCTION(int, mincore, (void *at, size_t size, unsigned char *to), (at, size, to), , GOOD, OUT(to, (size + getpagesize() - 1) / getpagesize()))
FUNCTION(int, name_to_handle_at, (int folder, const char *path, struct file_handle *to, int *mount, int how), (folder, path, to, mount, how), TEXT(path), GOOD,
         OUT(to, sizeof *to + to->handle_bytes) OUT(mount, OF(mount)))

// streams
FUNCTION(size_t, fread, (void *to, size_t each, size_t most, FILE *file), (to, each, most, file), , SOME, OUT(to, product(n, each)))
FUNCTION(size_t, fwrite, (const void *from, size_t each, size_t most, FILE *file), (from, each, most, file), , SOME, IN(from, product(n, each)))
FUNCTION(char *, fgets, (char *to, int most, FILE *file), (to, most, file), , FOUND, OUT_TEXT(to))
FUNCTION(wchar_t *, fgetws, (wchar_t *to, int most, FILE *file), (to, most, file), , FOUND, OUT_WIDE_TEXT(to))
FUNCTION(int, fputs, (const char *s, FILE *file), (s, file), TEXT(s), ALWAYS, )
FUNCTION(int, fputws, (const wchar_t *s, FILE *file), (s, file), WIDE_TEXT(s), ALWAYS, )
OF_TEXT(int, puts) OF_TEXT(int, system)
FUNCTION(ssize_t, getline, (char **to, size_t *size, FILE *file), (to, size, file), IN(to, OF(to)) IN(size, OF(size)), SOME,
         OUT(to, OF(to)) OUT(size, OF(size)) OUT(*to, n + 1))
FUNCTION(ssize_t, getdelim, (char **to, size_t *size, int end, FILE *file), (to, size, end, file), IN(to, OF(to)) IN(size, OF(size)), SOME,
         OUT(to, OF(to)) OUT(size, OF(size)) OUT(*to, n + 1))
OF_TEXTS(FILE *, fopen) OF_TEXTS(FILE *, fopen64) OF_TEXTS(FILE *, popen) OF_TEXTS(char *, tempnam)
TWO(FILE *, freopen, freopen64, (const char *path, const char *how, FILE *file), (path, how, file), TEXT(path) TEXT(how), ALWAYS, )
FUNCTION(FILE *, fdopen, (int file, const char *how), (file, how), TEXT(how), ALWAYS, )
FUNCTION(FILE *, fmemopen, (void *at, size_t size, const char *how), (at, size, how), TEXT(how), ALWAYS, )
FUNCTION(FILE *, open_memstream, (char **to, size_t *size), (to, size), , FOUND, OUT(to, OF(to)) OUT(size, OF(size)))
FUNCTION(FILE *, open_wmemstream, (wchar_t **to, size_t *size), (to, size), , FOUND, OUT(to, OF(to)) OUT(size, OF(size)))
FUNCTION(FILE *, fopencookie, (void *cookie, const char *how, cookie_io_functions_t functions), (cookie, how, functions), TEXT(how), ALWAYS, )
FUNCTION(struct mntent *, getmntent_r, (FILE *file, struct mntent *to, char *room, int most), (file, to, room, most), , FOUND, OUT(to, OF(to)) OUT_TEXT(to->mnt_dir))
FUNCTION(int, fgetpos, (FILE *file, fpos_t *to), (file, to), , GOOD, OUT(to, OF(to)))
FUNCTION(char *, tmpnam, (char to[L_tmpnam]), (to), , FOUND && to, OUT_TEXT(to))
FUNCTION(char *, tmpnam_r, (char to[L_tmpnam]), (to), , FOUND, OUT_TEXT(to))
FUNCTION(int, mkstemp, (char *path), (path), TEXT(path), NOT_FAILED, OUT_TEXT(path))
FUNCTION(char *, mkdtemp, (char *path), (path), TEXT(path), FOUND, OUT_TEXT(path))
FUNCTION(char *, ctermid, (char *to), (to), , FOUND && to, OUT_TEXT(to))

// sockets
FUNCTION(ssize_t, recv, (int file, void *to, size_t most, int how), (file, to, most, how), , SOME, OUT(to, SMALLER(n, most)))
FUNCTION(ssize_t, recvfrom, (int file, void *to, size_t most, int how, struct sockaddr *whom, socklen_t *size), (file, to, most, how, whom, size), ROOM(whom, size), NOT_FAILED,
         OUT(to, SMALLER(n, most)) OUT_ADDRESS(whom, size))
FUNCTION(ssize_t, recvmsg, (int file, struct msghdr *to, int how), (file, to, how), IN(to, OF(to)) IN_ARRAY(to->msg_iov, to->msg_iovlen), NOT_FAILED, OUT_MESSAGE(to, n))
FUNCTION(int, recvmmsg, (int file, struct mmsghdr *to, unsigned most, int how, struct timespec *time), (file, to, most, how, time), IN_ARRAY(to, most), SOME,
         for (int i = 0; i < n; i++) OUT_MESSAGE(&to[i].msg_hdr, to[i].msg_len))
FUNCTION(ssize_t, send, (int file, const void *from, size_t most, int how), (file, from, most, how), , SOME, IN(from, n))
FUNCTION(ssize_t, sendto, (int file, const void *from, size_t most, int how, const struct sockaddr *whom, socklen_t size), (file, from, most, how, whom, size), IN(whom, size), SOME,
         IN(from, n))
FUNCTION(ssize_t, sendmsg, (int file, const struct msghdr *from, int how), (file, from, how), IN_MESSAGE(from), SOME, IN_PIECES(from->msg_iov, from->msg_iovlen, n))
FUNCTION(int, sendmmsg, (int file, struct mmsghdr *from, unsigned most, int how), (file, from, most, how), IN_ARRAY(from, most), SOME,
         for (int i = 0; i < n; i++) { IN_PIECES(from[i].msg_hdr.msg_iov, from[i].msg_hdr.msg_iovlen, from[i].msg_len) })
TWO(int, bind, connect, (int file, const struct sockaddr *whom, socklen_t size), (file, whom, size), IN(whom, size), ALWAYS, )
FUNCTION(int, accept, (int file, struct sockaddr *whom, socklen_t *size), (file, whom, size), ROOM(whom, size), NOT_FAILED, OUT_ADDRESS(whom, size))
FUNCTION(int, accept4, (int file, struct sockaddr *whom, socklen_t *size, int how), (file, whom, size, how), ROOM(whom, size), NOT_FAILED, OUT_ADDRESS(whom, size))
TWO(int, getsockname, getpeername, (int file, struct sockaddr *whom, socklen_t *size), (file, whom, size), ROOM(whom, size), GOOD,
    OUT_ADDRESS(whom, size))
FUNCTION(int, getsockopt, (int file, int level, int name, void *to, socklen_t *size), (file, level, name, to, size), ROOM(to, size), GOOD, OUT_ADDRESS(to, size))
FUNCTION(int, setsockopt, (int file, int level, int name, const void *from, socklen_t size), (file, level, name, from, size), IN(from, size), ALWAYS, )
FUNCTION(int, socketpair, (int domain, int type, int protocol, int to[2]), (domain, type, protocol, to), , GOOD, OUT(to, 2 * sizeof *to))
FUNCTION(int, poll, (struct pollfd *files, nfds_t number, int time), (files, number, time), IN_ARRAY(files, number), NOT_FAILED, OUT_ARRAY(files, number))
FUNCTION(int, ppoll, (struct pollfd *files, nfds_t number, const struct timespec *time, const sigset_t *set), (files, number, time, set),
         IN_ARRAY(files, number) IN(time, OF(time)) IN(set, OF(set)), NOT_FAILED, OUT_ARRAY(files, number))
FUNCTION(int, epoll_wait, (int file, struct epoll_event *to, int most, int time), (file, to, most, time), , SOME, OUT_ARRAY(to, n))
FUNCTION(int, epoll_ctl, (int file, int how, int which, struct epoll_event *from), (file, how, which, from), IN(from, OF(from)), ALWAYS, )
FUNCTION(const char *, inet_ntop, (int family, const void *from, char *to, socklen_t most), (family, from, to, most), IN(from, ADDRESS_SIZE(family)), FOUND, OUT_TEXT(to))
FUNCTION(int, inet_pton, (int family, const char *from, void *to), (family, from, to), TEXT(from), n == 1, OUT(to, ADDRESS_SIZE(family)))
FUNCTION(int, inet_aton, (const char *from, struct in_addr *to), (from, to), TEXT(from), n, OUT(to, OF(to)))
FUNCTION(char *, if_indextoname, (unsigned number, char to[IF_NAMESIZE]), (number, to), , FOUND, OUT_TEXT(to))
OF_TEXT(unsigned, if_nametoindex) OF_TEXT(struct hostent *, gethostbyname) OF_TEXT(struct netent *, getnetbyname)
OF_TEXT(struct protoent *, getprotobyname) OF_TEXT(struct ether_addr *, ether_aton)
FUNCTION(int, getaddrinfo, (const char *name, const char *service, const struct addrinfo *hints, struct addrinfo **to), (name, service, hints, to),
         TEXT(name) TEXT(service) IN(hints, OF(hints)), GOOD, OUT(to, OF(to)))
FUNCTION(int, getnameinfo, (const struct sockaddr *whom, socklen_t size, char *host, socklen_t most, char *service, socklen_t most_service, int how),
         (whom, size, host, most, service, most_service, how), IN(whom, size), GOOD, OUT_TEXT(most ? host : NULL) OUT_TEXT(most_service ? service : NULL))
TO(getifaddrs, struct ifaddrs *)
OF_TEXT_AND(struct hostent *, gethostbyname2, int)
FUNCTION(struct hostent *, gethostbyaddr, (const void *from, socklen_t size, int family), (from, size, family), IN(from, size), ALWAYS, )
FUNCTION(int, gethostbyname_r, (const char *name, RESULT(struct hostent), int *error), (name, RESULTS, error), TEXT(name), GOOD && *found,
         OUT_FOUND)
FUNCTION(int, gethostbyname2_r, (const char *name, int family, RESULT(struct hostent), int *error), (name, family, RESULTS, error),
         TEXT(name), GOOD && *found, OUT_FOUND)
FUNCTION(int, gethostbyaddr_r, (const void *from, socklen_t size, int family, RESULT(struct hostent), int *error),
         (from, size, family, RESULTS, error), IN(from, size), GOOD && *found, OUT_FOUND)
FUNCTION(int, getprotobyname_r, (const char *name, RESULT(struct protoent)), (name, RESULTS), TEXT(name), GOOD && *found, OUT_FOUND)
FUNCTION(int, getprotobynumber_r, (int number, RESULT(struct protoent)), (number, RESULTS), , GOOD && *found, OUT_FOUND)
FUNCTION(struct ether_addr *, ether_aton_r, (const char *from, struct ether_addr *to), (from, to), TEXT(from), FOUND, OUT(to, OF(to)))
OF_ONE(char *, ether_ntoa, const struct ether_addr)
FUNCTION(char *, ether_ntoa_r, (const struct ether_addr *from, char *to), (from, to), IN(from, OF(from)), FOUND, OUT_TEXT(to))
TEXT_TO(ether_hostton, struct ether_addr)
FUNCTION(int, ether_ntohost, (char *to, const struct ether_addr *from), (to, from), IN(from, OF(from)), GOOD, OUT_TEXT(to))
FUNCTION(int, ether_line, (const char *line, struct ether_addr *to, char *name), (line, to, name), TEXT(line), GOOD, OUT(to, OF(to)) OUT_TEXT(name))

// memory and texts that libc itself compares or converts
FUNCTION(void *, memmem, (const void *in, size_t size, const void *part, size_t most), (in, size, part, most), IN(in, size) IN(part, most), ALWAYS, )
FUNCTION(void *, memrchr, (const void *in, int byte, size_t size), (in, byte, size), IN(in, size), ALWAYS, )
FUNCTION(void *, rawmemchr, (const void *in, int byte), (in, byte), , FOUND, IN(in, (size_t)((char *)n - (char *)in) + 1))
FUNCTION(void *, memccpy, (void *to, const void *from, int byte, size_t most), (to, from, byte, most), , ALWAYS, size_t size = n ? (size_t)((char *)n - (char *)to) : most;
         IN(from, size) OUT(to, size))
FUNCTION(char *, strcasestr, (const char *in, const char *part), (in, part), TEXT(part), ALWAYS, IN(in, n ? (size_t)(n - in) + length(part, ENDLESS) : length(in, ENDLESS) + 1))
FUNCTION(char *, strchrnul, (const char *in, int byte), (in, byte), , FOUND, IN(in, (size_t)(n - in) + 1))
OF_TEXTS(int, strcoll) OF_TEXTS(int, strverscmp)
FUNCTION(size_t, strxfrm, (char *to, const char *from, size_t most), (to, from, most), TEXT(from), n < most, OUT(to, n + 1))
FUNCTION(size_t, strxfrm_l, (char *to, const char *from, size_t most, locale_t locale), (to, from, most, locale), TEXT(from), n < most, OUT(to, n + 1))
FUNCTION(size_t, wcsxfrm, (wchar_t *to, const wchar_t *from, size_t most), (to, from, most), WIDE_TEXT(from), n < most, OUT(to, product(n + 1, WIDE)))
FUNCTION(size_t, wcsxfrm_l, (wchar_t *to, const wchar_t *from, size_t most, locale_t locale), (to, from, most, locale), WIDE_TEXT(from), n < most, OUT(to, product(n + 1, WIDE)))
FUNCTION(wchar_t *, wcschr, (const wchar_t *in, wchar_t c), (in, c), , ALWAYS, IN(in, n ? (size_t)((char *)(n + 1) - (char *)in) : (wcslen_of(in) + 1) * WIDE))
FUNCTION(wchar_t *, wcsrchr, (const wchar_t *in, wchar_t c), (in, c), WIDE_TEXT(in), ALWAYS, )
FUNCTION(wchar_t *, wcsstr, (const wchar_t *in, const wchar_t *part), (in, part), WIDE_TEXT(in) WIDE_TEXT(part), ALWAYS, )
FUNCTION(size_t, mbstowcs, (wchar_t *to, const char *from, size_t most), (to, from, most), , n != ENDLESS,
         OUT(to, (n + (n < most)) * WIDE) TEXT(!to || n < most ? from : NULL))
FUNCTION(size_t, wcstombs, (char *to, const wchar_t *from, size_t most), (to, from, most), , n != ENDLESS, OUT(to, n + (n < most)) WIDE_TEXT(!to || n < most ? from : NULL))
FUNCTION(size_t, mbsrtowcs, (wchar_t *to, const char **from, size_t most, mbstate_t *state), (to, from, most, state), IN(from, OF(from)), n != ENDLESS, OUT(to, (n + (n < most)) * WIDE))
FUNCTION(size_t, mbsnrtowcs, (wchar_t *to, const char **from, size_t size, size_t most, mbstate_t *state), (to, from, size, most, state), IN(from, OF(from)), n != ENDLESS,
         OUT(to, (n + (to && !*from)) * WIDE))
FUNCTION(size_t, wcsrtombs, (char *to, const wchar_t **from, size_t most, mbstate_t *state), (to, from, most, state), IN(from, OF(from)), n != ENDLESS, OUT(to, n + (to && !*from)))
FUNCTION(size_t, wcsnrtombs, (char *to, const wchar_t **from, size_t size, size_t most, mbstate_t *state), (to, from, size, most, state), IN(from, OF(from)), n != ENDLESS,
         OUT(to, n + (to && !*from)))
FUNCTION(size_t, mbrtowc, (wchar_t *to, const char *from, size_t most, mbstate_t *state), (to, from, most, state), , n <= MOST_BYTES, OUT(to, OF(to)) IN(from, n ? n : 1))
FUNCTION(int, mbtowc, (wchar_t *to, const char *from, size_t most), (to, from, most), , NOT_FAILED && from, OUT(to, OF(to)) IN(from, n ? n : 1))
FUNCTION(size_t, wcrtomb, (char *to, wchar_t c, mbstate_t *state), (to, c, state), , n != ENDLESS, OUT(to, n))
FUNCTION(int, wctomb, (char *to, wchar_t c), (to, c), , SOME, OUT(to, n))
FUNCTION(size_t, iconv, (iconv_t how, char **from, size_t *left, char **to, size_t *room), (how, from, left, to, room),
         IN(from, OF(from)) IN(left, OF(left)) IN(to, OF(to)) IN(room, OF(room)) char *begin = to ? *to : NULL; const char *in = from ? *from : NULL;, ALWAYS,
         OUT(begin, begin ? (size_t)(*to - begin) : 0) IN(in, in ? (size_t)(*from - in) : 0))
FUNCTION(int, regcomp, (regex_t *to, const char *pattern, int how), (to, pattern, how), TEXT(pattern), GOOD, OUT(to, OF(to)))
FUNCTION(int, regexec, (const regex_t *which, const char *in, size_t number, regmatch_t to[number], int how), (which, in, number, to, how),
         IN(which, OF(which)) TEXT(how & REG_STARTEND ? NULL : in), GOOD && !which->no_sub, OUT_ARRAY(to, number))
FUNCTION(size_t, regerror, (int error, const regex_t *which, char *to, size_t most), (error, which, to, most), , most > 0, OUT(to, SMALLER(n, most)))
FUNCTION(intmax_t, strtoimax, (const char *s, char **end, int base), (s, end, base), , ALWAYS, OUT(end, OF(end)))
FUNCTION(uintmax_t, strtoumax, (const char *s, char **end, int base), (s, end, base), , ALWAYS, OUT(end, OF(end)))
FUNCTION(long double, strtold, (const char *s, char **end), (s, end), , ALWAYS, OUT(end, OF(end)))
FUNCTION(char *, strptime, (const char *s, const char *format, struct tm *to), (s, format, to), TEXT(s) TEXT(format), FOUND, OUT(to, OF(to)))
FUNCTION(char *, strerror_r, (int error, char *to, size_t most), (error, to, most), , n == to && most, OUT_TEXT(to))
FUNCTION(int, __xpg_strerror_r, (int error, char *to, size_t most), (error, to, most), , GOOD && most, OUT_TEXT(to))
FUNCTION(char *, setlocale, (int which, const char *name), (which, name), TEXT(name), ALWAYS, )
OF_TEXT(char *, textdomain) OF_TEXT(char *, getenv) OF_TEXT(int, unsetenv)
FUNCTION(int, setenv, (const char *name, const char *value, int again), (name, value, again), TEXT(name) TEXT(value), ALWAYS, )
FUNCTION(int, putenv, (char *pair), (pair), TEXT(pair), ALWAYS, )

// numbers
VALUE_TO(double, frexp, int) VALUE_TO(float, frexpf, int) VALUE_TO(long double, frexpl, int)
VALUE_TO(double, modf, double) VALUE_TO(float, modff, float) VALUE_TO(long double, modfl, long double)
VALUE_TO(double, lgamma_r, int) VALUE_TO(float, lgammaf_r, int) VALUE_TO(long double, lgammal_r, int)
FUNCTION(long double, remquol, (long double one, long double other, int *to), (one, other, to), , ALWAYS, OUT(to, OF(to)))
FUNCTION(double, remquo, (double one, double other, int *to), (one, other, to), , ALWAYS, OUT(to, OF(to)))
FUNCTION(float, remquof, (float one, float other, int *to), (one, other, to), , ALWAYS, OUT(to, OF(to)))
FUNCTION(int, rand_r, (unsigned *seed), (seed), IN(seed, OF(seed)), ALWAYS, OUT(seed, OF(seed)))
ONE_TO(random_r, struct random_data, int32_t) ONE_TO(drand48_r, struct drand48_data, double)
ONE_TO(lrand48_r, struct drand48_data, long)
FUNCTION(int, getloadavg, (double *to, int number), (to, number), , SOME, OUT_ARRAY(to, n))
FUNCTION(ssize_t, getrandom, (void *to, size_t most, unsigned how), (to, most, how), , SOME, OUT(to, n))
FUNCTION(int, getentropy, (void *to, size_t size), (to, size), , GOOD, OUT(to, size))

// time
FUNCTION(time_t, time, (time_t *to), (to), , ALWAYS, OUT(to, OF(to)))
FUNCTION(int, gettimeofday, (struct timeval *to, void *zone), (to, zone), , GOOD, OUT(to, OF(to)))
KEY_TO(clock_gettime, clockid_t, struct timespec) KEY_TO(clock_getres, clockid_t, struct timespec)
KEY_TO(clock_getcpuclockid, pid_t, clockid_t) KEY_TO(getitimer, __itimer_which_t, struct itimerval)
KEY_TO(timerfd_gettime, int, struct itimerspec)
FUNCTION(int, clock_settime, (clockid_t clock, const struct timespec *from), (clock, from), IN(from, OF(from)), ALWAYS, )
FUNCTION(int, nanosleep, (const struct timespec *time, struct timespec *to), (time, to), IN(time, OF(time)), ALWAYS, )
OF_ONE(struct tm *, localtime, const time_t) OF_ONE(struct tm *, gmtime, const time_t)
OF_ONE(char *, ctime, const time_t) OF_ONE(char *, asctime, const struct tm)
TWO(struct tm *, localtime_r, gmtime_r, (const time_t *at, struct tm *to), (at, to), IN(at, OF(at)), FOUND, OUT(to, OF(to)))
FUNCTION(char *, ctime_r, (const time_t *at, char *to), (at, to), IN(at, OF(at)), FOUND, OUT_TEXT(to))
FUNCTION(char *, asctime_r, (const struct tm *at, char *to), (at, to), IN(at, OF(at)), FOUND, OUT_TEXT(to))
FUNCTION(time_t, mktime, (struct tm *at), (at), IN(at, OF(at)), ALWAYS, OUT(at, OF(at)))
FUNCTION(size_t, strftime, (char *to, size_t most, const char *format, const struct tm *at), (to, most, format, at), TEXT(format) IN(at, OF(at)), SOME, OUT(to, n + 1))
FUNCTION(clock_t, times, (struct tms *to), (to), , n != (clock_t)-1, OUT(to, OF(to)))
KEY_ONE_TO(setitimer, __itimer_which_t, const struct itimerval, struct itimerval)
FUNCTION(int, timerfd_settime, (int file, int how, const struct itimerspec *from, struct itimerspec *to), (file, how, from, to), IN(from, OF(from)), GOOD, OUT(to, OF(to)))

// users and groups
OF_TEXT(struct passwd *, getpwnam) OF_TEXT(struct group *, getgrnam)
FUNCTION(int, getpwnam_r, (const char *name, RESULT(struct passwd)), (name, RESULTS), TEXT(name), GOOD && *found, OUT_USER)
FUNCTION(int, getpwuid_r, (uid_t user, RESULT(struct passwd)), (user, RESULTS), , GOOD && *found, OUT_USER)
FUNCTION(int, getpwent_r, (RESULT(struct passwd)), (RESULTS), , GOOD && *found, OUT_USER)
FUNCTION(int, fgetpwent_r, (FILE *file, RESULT(struct passwd)), (file, RESULTS), , GOOD && *found, OUT_USER)
FUNCTION(int, getgrent_r, (RESULT(struct group)), (RESULTS), , GOOD && *found, OUT_GROUP)
FUNCTION(int, fgetgrent_r, (FILE *file, RESULT(struct group)), (file, RESULTS), , GOOD && *found, OUT_GROUP)
FUNCTION(int, getgrnam_r, (const char *name, RESULT(struct group)), (name, RESULTS), TEXT(name), GOOD && *found, OUT_GROUP)
FUNCTION(int, getgrgid_r, (gid_t group, RESULT(struct group)), (group, RESULTS), , GOOD && *found, OUT_GROUP)
FUNCTION(int, getgrouplist, (const char *user, gid_t group, gid_t *to, int *number), (user, group, to, number), TEXT(user) IN(number, OF(number)), NOT_FAILED,
         OUT_ARRAY(to, n) OUT(number, OF(number)))
FUNCTION(int, getgroups, (int most, gid_t *to), (most, to), , SOME && most, OUT_ARRAY(to, n))
OF_TEXT_AND(int, initgroups, gid_t)
FUNCTION(int, getresuid, (uid_t *one, uid_t *two, uid_t *three), (one, two, three), , GOOD, OUT(one, OF(one)) OUT(two, OF(two)) OUT(three, OF(three)))
FUNCTION(int, getresgid, (gid_t *one, gid_t *two, gid_t *three), (one, two, three), , GOOD, OUT(one, OF(one)) OUT(two, OF(two)) OUT(three, OF(three)))
FUNCTION(int, getlogin_r, (char *to, size_t most), (to, most), , GOOD, OUT_TEXT(to))

// the system, processes and signals
FUNCTION(int, gethostname, (char *to, size_t most), (to, most), , GOOD, OUT(to, with_end(length(to, most), most)))
FUNCTION(int, uname, (struct utsname *to), (to), , NOT_FAILED, OUT(to, OF(to)))
TO(sysinfo, struct sysinfo) TO(sigemptyset, sigset_t) TO(sigfillset, sigset_t) TO(sigpending, sigset_t)
FUNCTION(size_t, confstr, (int which, char *to, size_t most), (which, to, most), , SOME && most, OUT(to, SMALLER(n, most)))
KEY_TO(getrlimit, __rlimit_resource_t, struct rlimit) KEY_TO(getrusage, __rusage_who_t, struct rusage)
KEY_TO(sched_getparam, pid_t, struct sched_param) KEY_TO(pthread_getcpuclockid, pthread_t, clockid_t)
FUNCTION(int, setrlimit, (__rlimit_resource_t which, const struct rlimit *from), (which, from), IN(from, OF(from)), ALWAYS, )
FUNCTION(pid_t, wait, (int *to), (to), , SOME, OUT(to, OF(to)))
FUNCTION(pid_t, waitpid, (pid_t process, int *to, int how), (process, to, how), , SOME, OUT(to, OF(to)))
FUNCTION(pid_t, wait3, (int *to, int how, struct rusage *usage), (to, how, usage), , SOME, OUT(to, OF(to)) OUT(usage, OF(usage)))
FUNCTION(pid_t, wait4, (pid_t process, int *to, int how, struct rusage *usage), (process, to, how, usage), , SOME, OUT(to, OF(to)) OUT(usage, OF(usage)))
FUNCTION(int, waitid, (idtype_t type, id_t id, siginfo_t *to, int how), (type, id, to, how), , GOOD, OUT(to, OF(to)))
TWO(int, execv, execvp, (const char *path, char *const words[]), (path, words), TEXT(path), ALWAYS, )
FUNCTION(int, execve, (const char *path, char *const words[], char *const environment[]), (path, words, environment), TEXT(path), ALWAYS, )
TWO(int, posix_spawn, posix_spawnp,
    (pid_t *to, const char *path, const posix_spawn_file_actions_t *actions, const posix_spawnattr_t *attributes, char *const words[], char *const environment[]), (to, path, actions, attributes, words, environment), TEXT(path), GOOD, OUT(to, OF(to)))
FUNCTION(int, sched_getaffinity, (pid_t process, size_t size, cpu_set_t *to), (process, size, to), , GOOD, OUT(to, size))
KEY_ONE_TO(sigaction, int, const struct sigaction, struct sigaction)
KEY_ONE_TO(sigprocmask, int, const sigset_t, sigset_t) KEY_ONE_TO(pthread_sigmask, int, const sigset_t, sigset_t)
ONE_TO(sigaltstack, const stack_t, stack_t) ONE_TO(sigwait, const sigset_t, int)
ONE_TO(pthread_attr_getstacksize, const pthread_attr_t, size_t)
ONE_TO(pthread_attr_getguardsize, const pthread_attr_t, size_t)
ONE_TO(pthread_attr_getdetachstate, const pthread_attr_t, int) ONE_TO(pthread_attr_getscope, const pthread_attr_t, int)
ONE_TO(pthread_attr_getinheritsched, const pthread_attr_t, int)
ONE_TO(pthread_attr_getschedpolicy, const pthread_attr_t, int)
ONE_TO(pthread_attr_getschedparam, const pthread_attr_t, struct sched_param)
ONE_TO(pthread_mutexattr_gettype, const pthread_mutexattr_t, int)
ONE_TO(pthread_mutexattr_getpshared, const pthread_mutexattr_t, int)
ONE_TO(pthread_mutexattr_getprotocol, const pthread_mutexattr_t, int)
ONE_TO(pthread_mutexattr_getprioceiling, const pthread_mutexattr_t, int)
ONE_TO(pthread_mutexattr_getrobust, const pthread_mutexattr_t, int)
ONE_TO(pthread_condattr_getpshared, const pthread_condattr_t, int)
ONE_TO(pthread_rwlockattr_getkind_np, const pthread_rwlockattr_t, int)
ONE_TO(pthread_condattr_getclock, const pthread_condattr_t, clockid_t)
ONE_TO(pthread_rwlockattr_getpshared, const pthread_rwlockattr_t, int)
ONE_TO(pthread_barrierattr_getpshared, const pthread_barrierattr_t, int)
TWO(int, sigandset, sigorset, (sigset_t *to, const sigset_t *one, const sigset_t *other), (to, one, other),
    IN(one, OF(one)) IN(other, OF(other)), GOOD, OUT(to, OF(to)))
FUNCTION(int, sigwaitinfo, (const sigset_t *from, siginfo_t *to), (from, to), IN(from, OF(from)), SOME, OUT(to, OF(to)))
FUNCTION(int, sigtimedwait, (const sigset_t *from, siginfo_t *to, const struct timespec *time), (from, to, time), IN(from, OF(from)) IN(time, OF(time)), SOME, OUT(to, OF(to)))
FUNCTION(int, msgsnd, (int queue, const void *from, size_t size, int how), (queue, from, size, how), IN(from, sizeof(long) + size), ALWAYS, )
FUNCTION(ssize_t, msgrcv, (int queue, void *to, size_t most, long type, int how), (queue, to, most, type, how), , NOT_FAILED, OUT(to, sizeof(long) + n))
FUNCTION(int, shmctl, (int which, int how, struct shmid_ds *to), (which, how, to), , NOT_FAILED && how == IPC_STAT, OUT(to, OF(to)))
FUNCTION(ssize_t, process_vm_readv, (pid_t process, const struct iovec *to, unsigned long number, const struct iovec *from, unsigned long number_of_from, unsigned long how),
         (process, to, number, from, number_of_from, how), , SOME, OUT_PIECES(to, number, n))
FUNCTION(ssize_t, process_vm_writev, (pid_t process, const struct iovec *from, unsigned long number, const struct iovec *to, unsigned long number_of_to, unsigned long how),
         (process, from, number, to, number_of_to, how), , SOME, IN_PIECES(from, number, n))
FUNCTION(int, pthread_getname_np, (pthread_t thread, char *to, size_t most), (thread, to, most), , GOOD, OUT_TEXT(to))
FUNCTION(int, pthread_setname_np, (pthread_t thread, const char *name), (thread, name), TEXT(name), ALWAYS, )
FUNCTION(int, pthread_getschedparam, (pthread_t thread, int *policy, struct sched_param *to), (thread, policy, to), , GOOD, OUT(policy, OF(policy)) OUT(to, OF(to)))
FUNCTION(int, pthread_attr_getstack, (const pthread_attr_t *from, void **to, size_t *size), (from, to, size), IN(from, OF(from)), GOOD, OUT(to, OF(to)) OUT(size, OF(size)))
FUNCTION(int, pthread_attr_getaffinity_np, (const pthread_attr_t *from, size_t size, cpu_set_t *to), (from, size, to), IN(from, OF(from)), GOOD, OUT(to, size))
FUNCTION(int, sem_init, (sem_t *to, int is_shared, unsigned value), (to, is_shared, value), , GOOD, OUT(to, OF(to)))
OF_ONE(int, sem_destroy, sem_t) OF_ONE(int, sem_post, sem_t) OF_ONE(int, sem_trywait, sem_t)
FUNCTION(int, sem_getvalue, (sem_t *from, int *to), (from, to), , GOOD, OUT(to, OF(to)))
FUNCTION(int, backtrace, (void **to, int most), (to, most), , SOME, OUT_ARRAY(to, n))
FUNCTION(char **, backtrace_symbols, (void *const *from, int number), (from, number), IN_ARRAY(from, number), ALWAYS, )
