// Right calls of functions of libc with blocks of just the size that they need: they answer as libc does, and no error is told.
#define _GNU_SOURCE
#include <arpa/inet.h>
#include <dirent.h>
#include <execinfo.h>
#include <fcntl.h>
#include <glob.h>
#include <grp.h>
#include <iconv.h>
#include <ifaddrs.h>
#include <inttypes.h>
#include <locale.h>
#include <math.h>
#include <net/if.h>
#include <netdb.h>
#include <netinet/ether.h>
#include <poll.h>
#include <pthread.h>
#include <pwd.h>
#include <regex.h>
#include <sched.h>
#include <semaphore.h>
#include <signal.h>
#include <spawn.h>
#include <stdio.h>
#include <stdlib.h>
#include <string.h>
#include <sys/epoll.h>
#include <sys/eventfd.h>
#include <sys/random.h>
#include <sys/resource.h>
#include <sys/socket.h>
#include <sys/stat.h>
#include <sys/statvfs.h>
#include <sys/sysinfo.h>
#include <sys/time.h>
#include <sys/timerfd.h>
#include <sys/times.h>
#include <sys/uio.h>
#include <sys/utsname.h>
#include <sys/vfs.h>
#include <sys/wait.h>
#include <time.h>
#include <unistd.h>
#include <wchar.h>
#include <wordexp.h>

#define NEW(type) ((type *)calloc(1, sizeof(type)))
#define NEW_TEXT(text) strcpy(malloc(sizeof(text)), text)
#define WANT(condition) \
  if (!(condition)) return printf("line %d\n", __LINE__), 1
extern char **environ;
static void *nothing(void *given) { return given; }

static int files(void) {
  char path[] = "/tmp/functions.XXXXXX", *exact = NEW_TEXT("12345"), *line = NULL;
  size_t size = 0;
  int file = mkstemp(path), *both = malloc(2 * sizeof(int));
  struct iovec *pieces = malloc(2 * sizeof *pieces);
  WANT(file >= 0);
  pieces[0] = (struct iovec){exact, 2}, pieces[1] = (struct iovec){exact + 2, 3};
  WANT(writev(file, pieces, 2) == 5 && pwritev(file, pieces, 2, 5) == 5 && pwrite(file, exact, 5, 10) == 5 && write(file, exact, 5) == 5);
  WANT(lseek(file, 0, SEEK_SET) == 0 && readv(file, pieces, 2) == 5 && preadv(file, pieces, 2, 5) == 5 && pread(file, exact, 5, 10) == 5);
  WANT(!strcmp(exact, "12345") && read(file, exact, 5) == 5);
  struct stat *status = NEW(struct stat);
  WANT(!stat(path, status) && !lstat(path, status) && !fstat(file, status) && !fstatat(AT_FDCWD, path, status, 0));
  WANT(!statfs("/", NEW(struct statfs)) && !fstatfs(file, NEW(struct statfs)) && !statvfs("/", NEW(struct statvfs)) && !fstatvfs(file, NEW(struct statvfs)));
  WANT(!access(path, R_OK) && !chmod(path, 0600) && !truncate(path, 3));
  char *link = malloc(64), *to = malloc(strlen(path));
  snprintf(link, 64, "%s.2", path);
  WANT(!symlink(path, link) && readlink(link, to, strlen(path)) == (ssize_t)strlen(path) && readlinkat(AT_FDCWD, link, to, 4) == 4 && !unlink(link));
  char *whole = canonicalize_file_name(path);
  WANT(whole && !strcmp(whole, path));
  FILE *stream = fopen(path, "w+");
  WANT(stream && fputs("one\ntwo\n", stream) >= 0 && fputws(L"", stream) < 0);
  rewind(stream);
  WANT(getline(&line, &size, stream) == 4 && !strcmp(line, "one\n") && getdelim(&line, &size, 'w', stream) == 2);
  WANT(!fgetpos(stream, NEW(fpos_t)) && (stream = freopen(path, "r", stream)) && fread(malloc(8), 1, 8, stream) == 8);
  WANT(!fclose(stream) && !unlink(path) && !pipe(both) && !pipe2(both, O_CLOEXEC) && !socketpair(AF_UNIX, SOCK_STREAM, 0, both));
  struct dirent **names;
  glob_t *found = NEW(glob_t);
  WANT(scandir("/usr", &names, NULL, alphasort) > 0 && !glob("/us*", 0, NULL, found) && found->gl_pathc);
  wordexp_t *words = NEW(wordexp_t);
  WANT(!wordexp("a b", words, 0) && words->we_wordc == 2 && opendir("/usr") && mkdtemp(NEW_TEXT("/tmp/functions.XXXXXX")));
  char **made = malloc(sizeof *made);
  size_t *bytes = malloc(sizeof *bytes);
  stream = open_memstream(made, bytes);
  WANT(stream && fputs("abc", stream) >= 0 && !fclose(stream) && *bytes == 3 && !strcmp(*made, "abc"));
  stream = fmemopen(exact, 5, "r");
  WANT(stream && fgets(malloc(6), 6, stream) && !fclose(stream));
  int counter = eventfd(3, 0);
  WANT(!eventfd_read(counter, NEW(eventfd_t)));
  stream = popen("echo one", "r");
  WANT(stream && fgets(malloc(5), 5, stream) && !pclose(stream) && !system("true") && (stream = tmpfile()));
  WANT(fputws(L"one", stream) >= 0 && (rewind(stream), fgetws(malloc(4 * sizeof(wchar_t)), 9, stream)) && !fclose(stream));
  return 0;
}

static int sockets(void) {
  int ends[2];
  char *exact = malloc(5);
  struct sockaddr_in *at = NEW(struct sockaddr_in);
  socklen_t *size = NEW(socklen_t);
  WANT(!socketpair(AF_UNIX, SOCK_DGRAM, 0, ends) && send(ends[0], "123456789", 9, 0) == 9 && recv(ends[1], exact, 5, MSG_TRUNC) == 9);
  struct iovec *piece = NEW(struct iovec);
  struct msghdr *message = NEW(struct msghdr);
  *piece = (struct iovec){exact, 5}, message->msg_iov = piece, message->msg_iovlen = 1;
  WANT(sendmsg(ends[0], message, 0) == 5 && recvmsg(ends[1], message, 0) == 5 && sendto(ends[0], "123456789", 9, 0, NULL, 0) == 9);
  WANT(recvmsg(ends[1], message, MSG_TRUNC) == 9);
  struct mmsghdr *messages = calloc(2, sizeof *messages);
  messages[0].msg_hdr = messages[1].msg_hdr = *message;
  WANT(sendmmsg(ends[0], messages, 2, 0) == 2 && recvmmsg(ends[1], messages, 2, 0, NULL) == 2);
  int server = socket(AF_INET, SOCK_STREAM, 0), client = socket(AF_INET, SOCK_STREAM, 0), one = 1;
  at->sin_family = AF_INET, *size = sizeof *at;
  WANT(inet_pton(AF_INET, "127.0.0.1", malloc(4)) == 1 && inet_pton(AF_INET6, "::1", malloc(16)) == 1 && inet_aton("127.0.0.1", &at->sin_addr));
  WANT(!strcmp(inet_ntop(AF_INET, &at->sin_addr, malloc(10), 16), "127.0.0.1") && !setsockopt(server, SOL_SOCKET, SO_REUSEADDR, &one, sizeof one));
  WANT(!bind(server, (struct sockaddr *)at, sizeof *at) && !listen(server, 1) && !getsockname(server, (struct sockaddr *)at, size) && *size == sizeof *at);
  WANT(!connect(client, (struct sockaddr *)at, *size) && !getpeername(client, (struct sockaddr *)at, size));
  *size = 4;
  int other = accept(server, malloc(4), size);
  WANT(other >= 0 && *size == sizeof *at && send(client, "abc", 3, 0) == 3 && recvfrom(other, exact, 5, 0, NULL, NULL) == 3);
  *size = sizeof(int);
  WANT(!getsockopt(server, SOL_SOCKET, SO_TYPE, malloc(sizeof(int)), size));
  struct pollfd *file = NEW(struct pollfd);
  *file = (struct pollfd){client, POLLOUT, 0};
  WANT(poll(file, 1, 0) == 1 && ppoll(file, 1, NEW(struct timespec), NULL) == 1);
  int set = epoll_create1(0);
  struct epoll_event *event = malloc(sizeof *event);
  event->events = EPOLLOUT, event->data.fd = client;
  WANT(!epoll_ctl(set, EPOLL_CTL_ADD, client, event) && epoll_wait(set, event, 1, 0) == 1);
  struct addrinfo *hints = NEW(struct addrinfo), **found = NEW(struct addrinfo *);
  hints->ai_flags = AI_NUMERICHOST;
  WANT(!getaddrinfo("127.0.0.1", "80", hints, found) && !getnameinfo((*found)->ai_addr, (*found)->ai_addrlen, malloc(10), 10, malloc(3), 3, NI_NUMERICHOST | NI_NUMERICSERV));
  freeaddrinfo(*found);
  WANT(!getifaddrs(NEW(struct ifaddrs *)) && (!if_nametoindex("lo") || if_indextoname(if_nametoindex("lo"), malloc(3))));
  char *text = malloc(18);
  struct ether_addr *ether = NEW(struct ether_addr);
  WANT(ether_aton_r("01:02:03:04:05:06", ether) && ether_ntoa_r(ether, text));
  return 0;
}

static int texts(void) {
  char *exact = malloc(8), *end, **in = NEW(char *), **out = NEW(char *);
  wchar_t *wide = malloc(3 * sizeof *wide);
  size_t *left = NEW(size_t), *room = NEW(size_t);
  memcpy(exact, "abcdefg", 8);
  WANT(memmem(exact, 8, "ef", 2) == exact + 4 && memrchr(exact, 'b', 8) == exact + 1 && rawmemchr(exact, 'g') == exact + 6 && strcasestr(exact, "CD") == exact + 2);
  WANT(*strchrnul(exact, 'z') == 0 && strcoll(exact, exact) == 0 && strverscmp("a1", "a2") < 0 && memccpy(exact, "xyz", 'y', 8) == exact + 2);
  WANT(strxfrm(exact, "1234567", 8) == 7 && strxfrm(exact, "123456789", 0) == 9 && wcsxfrm(wide, L"ab", 3) == 2 && wcscmp(wide, L"ab") == 0);
  WANT(mbstowcs(wide, "ab", 3) == 2 && mbstowcs(wide, "abc", 3) == 3 && mbstowcs(NULL, "abc", 0) == 3 && wcstombs(exact, L"1234567", 8) == 7);
  const char *from = "ab";
  const wchar_t *wide_from = L"ab";
  mbstate_t *state = NEW(mbstate_t);
  WANT(mbsrtowcs(wide, &from, 3, state) == 2 && (from = "ab", mbsnrtowcs(wide, &from, 2, 3, state) == 2) && wcsrtombs(malloc(3), &wide_from, 3, state) == 2);
  WANT(mbrtowc(wide, "a", 1, state) == 1 && mbtowc(wide, "a", 1) == 1 && wcrtomb(malloc(1), L'a', state) == 1 && wctomb(malloc(1), L'a') == 1);
  WANT(wcsncat(wcscpy(wide, L"a"), L"bc", 1) && wcsnlen(wide, 2) == 2 && wcslen(wcsdup(wide)) == 2 && wcschr(wide, L'b') == wide + 1 && wcsstr(wide, L"b"));
  *in = "1234567", *left = 7, *out = exact, *room = 8;
  WANT(iconv(iconv_open("UTF-8", "ISO-8859-1"), in, left, out, room) == 0 && *room == 1);
  regex_t *pattern = NEW(regex_t);
  regmatch_t *matches = malloc(2 * sizeof *matches);
  WANT(!regcomp(pattern, "(b)", REG_EXTENDED) && !regexec(pattern, "abc", 2, matches, 0) && matches[1].rm_so == 1);
  WANT(regerror(REG_NOMATCH, pattern, exact, 8) > 0);
  regfree(pattern);
  WANT(!regcomp(pattern, "b", REG_NOSUB) && !regexec(pattern, "abc", 9, (regmatch_t *)exact, 0));
  matches[0].rm_so = 0, matches[0].rm_eo = 2, memcpy(exact, "abcdefgh", 8);
  WANT(!regcomp(pattern, "b", 0) && !regexec(pattern, exact, 1, matches, REG_STARTEND));
  WANT(strtoimax("12", NULL, 10) == 12 && strtoumax("12z", &end, 10) == 12 && *end == 'z' && strtold("1.5", &end) == 1.5L);
  WANT(strptime("2001", "%Y", NEW(struct tm)) && setlocale(LC_ALL, "C") && strerror_r(2, exact, 8) && !setenv("FUNCTIONS", "1", 1) && !unsetenv("FUNCTIONS"));
  return 0;
}

static int numbers(void) {
  int *whole = NEW(int);
  double *real = NEW(double), *other = NEW(double);
  WANT(frexp(8, whole) == 0.5 && *whole == 4 && frexpf(8, whole) == 0.5f && modf(2.5, real) == 0.5 && *real == 2 && modff(2.5f, NEW(float)) == 0.5f);
  WANT(lgamma_r(3, whole) > 0 && *whole == 1 && remquo(5, 3, whole) == -1);
  sincos(0, real, other);
  WANT(*real == 0 && *other == 1 && rand_r(NEW(unsigned)) >= 0 && getloadavg(malloc(3 * sizeof(double)), 3) >= -1);
  WANT(getrandom(malloc(8), 8, 0) == 8 && !getentropy(malloc(8), 8) && !drand48_r(NEW(struct drand48_data), real) && !lrand48_r(NEW(struct drand48_data), NEW(long)));
  return 0;
}

static int times_and_users(void) {
  time_t *at = NEW(time_t);
  struct tm *tm = NEW(struct tm);
  WANT(time(at) > 0 && !gettimeofday(NEW(struct timeval), NULL) && !clock_gettime(CLOCK_MONOTONIC, NEW(struct timespec)) && !clock_getres(CLOCK_MONOTONIC, NEW(struct timespec)));
  WANT(localtime_r(at, tm) && gmtime_r(at, tm) && localtime(at) && gmtime(at) && ctime(at) && asctime(tm) && ctime_r(at, malloc(26)) && asctime_r(tm, malloc(26)));
  WANT(mktime(tm) > 0 && strftime(malloc(5), 5, "%Y", tm) == 4 && times(NEW(struct tms)) > 0 && !nanosleep(NEW(struct timespec), NULL));
  WANT(!getitimer(ITIMER_REAL, NEW(struct itimerval)) && !setitimer(ITIMER_REAL, NEW(struct itimerval), NEW(struct itimerval)));
  int timer = timerfd_create(CLOCK_MONOTONIC, 0);
  WANT(!timerfd_settime(timer, 0, NEW(struct itimerspec), NEW(struct itimerspec)) && !timerfd_gettime(timer, NEW(struct itimerspec)));
  struct passwd **user = NEW(struct passwd *);
  struct group **group = NEW(struct group *);
  WANT(getpwnam("root") && getgrnam("root") && !getpwnam_r("root", NEW(struct passwd), malloc(1024), 1024, user) && *user);
  WANT(!getpwuid_r(0, NEW(struct passwd), malloc(1024), 1024, user) && *user && !getgrnam_r("root", NEW(struct group), malloc(1024), 1024, group) && *group);
  int *number = NEW(int);
  *number = 64;
  WANT(getgrouplist("root", 0, malloc(64 * sizeof(gid_t)), number) >= 0 && getgroups(0, NULL) >= 0);
  WANT(!getresuid(NEW(uid_t), NEW(uid_t), NEW(uid_t)) && !getresgid(NEW(gid_t), NEW(gid_t), NEW(gid_t)));
  return 0;
}

static int processes(void) {
  int *status = NEW(int);
  pid_t *process = NEW(pid_t);
  sigset_t *set = NEW(sigset_t);
  char *words[] = {"true", NULL};
  WANT(!posix_spawnp(process, "true", NULL, NULL, words, environ) && waitpid(*process, status, 0) == *process && !*status);
  WANT(!posix_spawnp(process, "true", NULL, NULL, words, environ) && wait4(*process, status, 0, NEW(struct rusage)) == *process);
  WANT(!posix_spawnp(process, "true", NULL, NULL, words, environ) && !waitid(P_PID, *process, NEW(siginfo_t), WEXITED));
  WANT(!posix_spawnp(process, "true", NULL, NULL, words, environ) && wait(status) == *process);
  WANT(!sigemptyset(set) && !sigfillset(set) && !sigandset(set, set, set) && !sigpending(NEW(sigset_t)) && !sigprocmask(SIG_BLOCK, NULL, set));
  WANT(!pthread_sigmask(SIG_BLOCK, set, NEW(sigset_t)) && !sigaction(SIGUSR1, NULL, NEW(struct sigaction)) && !sigaltstack(NULL, NEW(stack_t)));
  sigemptyset(set), sigaddset(set, SIGUSR1), sigprocmask(SIG_BLOCK, set, NULL), raise(SIGUSR1);
  WANT(!sigwait(set, NEW(int)) && (raise(SIGUSR1), sigtimedwait(set, NEW(siginfo_t), NEW(struct timespec))) == SIGUSR1);
  WANT(!gethostname(malloc(65), 65) && !uname(NEW(struct utsname)) && !sysinfo(NEW(struct sysinfo)) && confstr(_CS_PATH, malloc(4), 4) > 0);
  WANT(!getrlimit(RLIMIT_CORE, NEW(struct rlimit)) && !getrusage(RUSAGE_SELF, NEW(struct rusage)) && sched_getaffinity(0, sizeof(cpu_set_t), NEW(cpu_set_t)) >= 0);
  pthread_t *thread = NEW(pthread_t);
  pthread_attr_t *attributes = NEW(pthread_attr_t);
  WANT(!pthread_attr_init(attributes) && !pthread_attr_getstacksize(attributes, NEW(size_t)) && !pthread_attr_getdetachstate(attributes, NEW(int)));
  WANT(!pthread_create(thread, attributes, nothing, NULL) && !pthread_join(*thread, NULL) && !pthread_getname_np(pthread_self(), malloc(16), 16));
  WANT(!pthread_getschedparam(pthread_self(), NEW(int), NEW(struct sched_param)) && !pthread_setname_np(pthread_self(), "own"));
  sem_t *semaphore = NEW(sem_t);
  WANT(!sem_init(semaphore, 0, 1) && !sem_trywait(semaphore) && !sem_post(semaphore) && !sem_getvalue(semaphore, NEW(int)) && !sem_destroy(semaphore));
  void **calls = malloc(2 * sizeof *calls);
  WANT(backtrace(calls, 2) > 0 && backtrace_symbols(calls, 1));
  struct iovec *here = NEW(struct iovec), *there = NEW(struct iovec);
  *here = (struct iovec){malloc(4), 4}, *there = (struct iovec){status, 4};
  process_vm_readv(getpid(), here, 1, there, 1, 0);
  return 0;
}

int main(void) { return files() || sockets() || texts() || numbers() || times_and_users() || processes(); }
