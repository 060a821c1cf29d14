/* What the program asks of the system, in the module: the processor and signals are no question there; the rest the
   host answers. */
typedef __SIZE_TYPE__ size_t;
typedef __INT64_TYPE__ i64;
static const unsigned all[8] = {~0u, ~0u, ~0u, ~0u, ~0u, ~0u, ~0u, ~0u};
const void *__x86_get_cpuid_feature_leaf(int leaf) { (void)leaf; return all; } /* it has no instruction of x86 */
/* the host ignores SIGPIPE before it begins */
i64 __sysv_signal(int number, i64 how) { (void)number; (void)how; return 0; }

#define HOST(name) __attribute__((import_module("host"), import_name(name)))
HOST("read") i64 host_read(int, void *, size_t);
HOST("write") i64 host_write(int, const void *, size_t);
HOST("lseek") i64 host_lseek(int, i64, int);
HOST("isatty") int host_isatty(int);
HOST("word") i64 host_word(size_t, void *, size_t);
HOST("errno") int host_errno(void);

static int set;
static int is_set;
i64 read(int fd, void *to, size_t n) { is_set = 0; return host_read(fd, to, n); }
i64 write(int fd, const void *from, size_t n) { is_set = 0; return host_write(fd, from, n); }
i64 __write(int fd, const void *from, size_t n) { return host_write(fd, from, n); }
i64 lseek(int fd, i64 at, int from) { is_set = 0; return host_lseek(fd, at, from); }
int isatty(int fd) { is_set = 0; return host_isatty(fd); }
i64 rattle_arg(size_t n, void *to, size_t room) { return host_word(n, to, room); }
int rattle_errno(void) { return is_set ? set : host_errno(); }
void rattle_set_errno(int number) { set = number; is_set = 1; }
i64 rattle_env(const void *a, void *b, size_t c) { (void)a; (void)b; (void)c; return -1; }
i64 rattle_env_at(size_t a, void *b, size_t c) { (void)a; (void)b; (void)c; return -1; }
