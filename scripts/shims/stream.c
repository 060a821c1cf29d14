// Appends each call of malloc, free and the like to a stream. A library for LD_PRELOAD and glibc; scripts/profile_program and trace_program
// build and use it.
//
// MTE_STREAM=FILE  the file that the reader made. Nothing is called for a record: no lock, no system call; there is no word in a block, and
//                  nothing at the end. A thread that is a lane ahead of the reader sleeps, where the process may. A request is put down
//                  after it has its block, a free before the block is given back: so the reader finds an order in which the calls could
//                  have come one after the other, and in which a call stands before an earlier one of another thread only where its own
//                  thread has made fewer than STRIDE records since.
//
// Each call goes on to the function that it would have reached without the library, so a program with another allocator keeps that. A
// process is left untouched where its allocator can't be followed, and the stream names the file that has it.
#define _GNU_SOURCE
#include <dlfcn.h>
#include <spawn.h>
#include <stdarg.h>
#include <stddef.h>
#include <stdio.h>
#include <stdlib.h>
#include <string.h>
#include <sys/mman.h>
#include <sys/prctl.h>
#include <time.h>
#include "loadable.h"
#if __has_include(<sys/single_threaded.h>)
#include <sys/single_threaded.h>
#else
#define __libc_single_threaded 0
#endif
#ifndef COUNTS
#define COUNTS 0
#endif
static volatile int sealed;  // whether the process gave up system calls: a fork can't open the file
#ifdef STACKS
#include "stacks.h"
#define FRAME __builtin_frame_address(0)
#else
#define FRAME NULL
#define stack_of(frame) 0
#endif

extern void *__libc_malloc(size_t), *__libc_calloc(size_t, size_t), *__libc_realloc(void *, size_t), *__libc_memalign(size_t, size_t);
extern void __libc_free(void *);

typedef int (*spawns)(pid_t *, const char *, const posix_spawn_file_actions_t *, const posix_spawnattr_t *, char *const[],
                      char *const[]);

// The functions that the calls go on to. Those of glibc serve only what finding them requests itself.
static struct {
  void *(*malloc)(size_t), *(*calloc)(size_t, size_t), *(*realloc)(void *, size_t);
  void (*free)(void *);
  void *(*memalign)(size_t, size_t), *(*aligned_alloc)(size_t, size_t), *(*valloc)(size_t), *(*pvalloc)(size_t);
  int (*posix_memalign)(void **, size_t, size_t);
  int (*execve)(const char *, char *const[], char *const[]), (*execvpe)(const char *, char *const[], char *const[]);
  int (*fexecve)(int, char *const[], char *const[]);
  spawns posix_spawn, posix_spawnp;
} next = {.malloc = __libc_malloc, .calloc = __libc_calloc, .realloc = __libc_realloc, .free = __libc_free, .memalign = __libc_memalign};

// At the first call, and not in a constructor, which others come before: a block stays with one allocator.
static int found;
#define FIND(function) (next.function = (__typeof__(next.function))dlsym(RTLD_NEXT, #function))
static __attribute__((noinline, cold)) void find(void) {
  found = 1;
  FIND(execve), FIND(execvpe), FIND(fexecve), FIND(posix_spawn), FIND(posix_spawnp);
  FIND(posix_memalign), FIND(aligned_alloc), FIND(memalign), FIND(valloc), FIND(pvalloc);
  FIND(calloc), FIND(realloc), FIND(free), FIND(malloc);
}
#define TO(function) (*(__builtin_expect(!found, 0) ? find() : (void)0, &next.function))

// Where this process writes. `here` is on a page that a forked child sees empty, however it is forked; a child of vfork shares the heap,
// and so the ring. What comes before the file is mapped is early.
enum { EARLY = 1 << 15, RING_WORDS = COUNTS ? COUNTING_RING : WORDS_OF_RING };  // of what is early, and of a ring
enum { UNSTARTED, STARTING, WRITES, OFF };
struct place { struct ring *ring; uint64_t *records; int state; pid_t process; };
static uint64_t early[EARLY];
static struct ring early_ring;
static struct place at_first = {&early_ring, early, STARTING, 0}, *here = &at_first;

static char file[PATH_MAX];  // as MTE_STREAM has it
static int is_service;       // whether something else than the reader started the program
static struct stream *stream;
static struct stat status_of;  // of the file
static uint64_t *mapped;     // in a forked child: the records of its parent
static volatile int reached; // whether a call came to the library's malloc while it may not record
static int may_sleep;        // whether the process may call futex

#ifdef __x86_64__
extern long plain_syscall(long number, ...) __attribute__((visibility("hidden")));
#else
#define plain_syscall syscall
#endif

static void refuse(int reason) { __atomic_fetch_add(&stream->refused[reason], 1, __ATOMIC_RELAXED); }

// Whether this process is under filters of system calls that the reader is not under: nothing is known of these, and one
// may end the process.
static int is_under_seccomp(const struct own *own) {
  return own->filters && (!stream || own->filters != (long)stream->filters);
}

// Takes the first ring that is free. On a disk it gets its room first: a write to a page that has none would end the program.
static int take_ring(int opened, uint64_t process) {
  uint64_t bytes = RING_WORDS * 8;
  for (uint64_t k = 0; k < stream->number && k < RINGS; k++) {
    struct ring *ring = &stream->rings[k];
    uint64_t none = 0;
    if (ring->process || !__atomic_compare_exchange_n(&ring->process, &none, process, 0, __ATOMIC_ACQ_REL, __ATOMIC_RELAXED)) continue;
    int has_room = !is_service || !fallocate(opened, 0, HEAD + k * bytes, bytes);
    void *records = MAP_FAILED;
    if (has_room) records = mmap(NULL, bytes, PROT_READ | PROT_WRITE, MAP_SHARED | MAP_NORESERVE, opened, HEAD + k * bytes);
    if (records == MAP_FAILED) {
      refuse(has_room ? NO_MEMORY : NO_ROOM);
      return __atomic_store_n(&ring->process, 0, __ATOMIC_RELEASE), 0;
    }
    madvise(records, bytes, MADV_DONTDUMP);
    strncpy(ring->name, program_invocation_short_name, sizeof ring->name - 1);
    mapped = records, *here = (struct place){ring, records, STARTING, getpid()};
    __atomic_store_n(&ring->start, __atomic_add_fetch(&stream->turn, 1, __ATOMIC_ACQ_REL), __ATOMIC_RELEASE);
    return 1;
  }
  return refuse(NO_RING), 0;
}

static void say(const char *what) {
  char line[PATH_MAX + 256];
  int length = snprintf(line, sizeof line, "MTE_STREAM=%s: %s; nothing is recorded\n", file, what);
  if (is_service && write(STDERR_FILENO, line, length) < 0) return;
  char *name = getenv("MTE_STREAM");
  if (name) *name = 0;  // the processes that this one starts don't say it again
}

// Whether the file is in a folder of the user's or root's that others can neither list nor change: then nobody else finds it.
static int is_name_secret(void) {
  char folder[PATH_MAX];
  struct stat status;
  snprintf(folder, sizeof folder, "%s", file);
  char *end = strrchr(folder, '/');
  if (!end || end == folder) return 0;
  *end = 0;
  return !lstat(folder, &status) && S_ISDIR(status.st_mode) && (!status.st_uid || status.st_uid == getauxval(AT_EUID)) && !(status.st_mode & 066);
}

// Maps the table of the file that is open, if it is not mapped yet, by calls that the loader has just made. Null, or why
// that can't be.
static const char *map_stream(int opened) {
  struct stat status;
  if (fstat(opened, &status) || !S_ISREG(status.st_mode) || status.st_size <= HEAD) return "it is another file";
  if (stream && (status.st_dev != status_of.st_dev || status.st_ino != status_of.st_ino)) return "it is another file";
  if (stream) return NULL;
  // another user could cut it off, and so end the program
  if (is_service && status.st_uid && status.st_uid != getauxval(AT_EUID)) return "it is another user's file";
  if (is_service && (status.st_mode & 022 || status.st_nlink > 1) && !is_name_secret()) return "others can change it, or it has another name too";
  struct stream *table = mmap(NULL, HEAD, PROT_READ | PROT_WRITE, MAP_SHARED, opened, 0);
  if (table == MAP_FAILED) return "it can't be mapped";
  if (table->form != FORM) return munmap(table, HEAD), "it is another file";
  stream = table, status_of = status;
  return NULL;
}

// Goes on with calls that a filter may not know: whether this process has a ring now.
static int begin_ring(int opened, const struct own *own) {
  static int wipes;  // whether a forked child sees the page of `here` empty
  if (mapped) munmap(mapped, RING_WORDS * 8), mapped = NULL;
  if (!wipes) wipes = !madvise(here, PAGE, MADV_WIPEONFORK);
  may_sleep = plain_syscall(SYS_futex, &stream->alive, FUTEX_WAKE, 0, NULL, NULL, 0) >= 0;
  WITH_STACKS(begin_stacks(opened, stream->stacks);)
  return wipes && !stream->closed && take_ring(opened, own->process);
}

static int is_elsewhere(void) { return is_service && stream->space != own_space(); }

// At the start, and in a forked child. A call that comes meanwhile, from a handler or another thread, is not recorded.
// What is called first the loader has called too, and more only where the process is under no filter that could end it
// for that.
static void begin(void) {
  int error = errno, unstarted = UNSTARTED, opened = -1, taken = 0, is_fork = stream != NULL;
  struct own own;
  if (!__atomic_compare_exchange_n(&here->state, &unstarted, STARTING, 0, __ATOMIC_ACQUIRE, __ATOMIC_RELAXED)) return;
  int is_known = !sealed && read_own(&own);
  sealed |= is_fork && is_known && is_under_seccomp(&own);
  if (is_fork && (sealed || !is_known)) {
    refuse(sealed ? SEALED : NO_FILE);
  } else if ((opened = open(file, O_RDWR | O_CLOEXEC | O_NONBLOCK | O_NOCTTY | (is_service ? O_NOFOLLOW : 0))) < 0) {
    if (is_fork) refuse(NO_FILE); else say(strerror(errno));
  } else {
    const char *wrong = map_stream(opened);
    if (!wrong && !is_known) wrong = "/proc can't be read";
    else if (!wrong && is_under_seccomp(&own)) sealed = 1, refuse(SEALED);
    else if (!wrong && is_elsewhere()) wrong = "its reader is in another namespace of processes: run it in this one";
    else if (!wrong) taken = begin_ring(opened, &own);
    if (wrong && is_fork) refuse(NO_FILE); else if (wrong) say(wrong);
    close(opened);
  }
  __atomic_store_n(&here->state, taken ? WRITES : OFF, __ATOMIC_RELEASE);
  errno = error;
}

// Another allocator may call its own functions by their public names, also as the last thing that it does: that is no request of the
// program.
struct part { uintptr_t from, bytes; };
static struct part allocator;  // another one's; empty for glibc's
extern const char __ehdr_start[] __attribute__((visibility("hidden"))), _end[] __attribute__((visibility("hidden")));

static inline int is_inner(void *caller) {
  if (__builtin_expect(!allocator.bytes, 1)) return 0;
  uintptr_t at = (uintptr_t)caller;
  return at - allocator.from < allocator.bytes || at - (uintptr_t)__ehdr_start < (uintptr_t)(_end - __ehdr_start);
}
#define IS_INNER is_inner(__builtin_return_address(0))

// What tells a thread from the others of its process; one that comes later may get it again.
static inline uint64_t own_thread(void) {
#ifdef __x86_64__
  uint64_t thread;
  __asm__("movq %%fs:16, %0" : "=r"(thread));
  return thread;
#else
  return (uintptr_t)__builtin_thread_pointer();
#endif
}

// The distances of threads are much alike: so it is no linear function.
static inline uint64_t mixed_thread(uint64_t thread) { return (thread >> 6 ^ thread >> 21) * 0x9E3779B97F4A7C15ULL; }

#if COUNTS
#include "counts.h"
#else
#include "records.h"
#endif
#define REQUEST(kind, block, size) request(kind, block, size, FRAME)

void *malloc(size_t size) {
  void *block = TO(malloc)(size);
  return IS_INNER ? block : REQUEST(MALLOC, block, size);
}

void *calloc(size_t number, size_t each) {
  size_t size;
  if (__builtin_mul_overflow(number, each, &size)) size = -1;
  void *block = TO(calloc)(number, each);
  return IS_INNER ? block : REQUEST(CALLOC, block, size);
}

// an aligned request counts as the bytes that an allocator with 16-byte granules sets aside for it
static inline __attribute__((always_inline)) void *aligned(size_t alignment, size_t size, void *block, int inner,
                                                           const void *frame) {
  size_t all = size;
  if (alignment > 16 && __builtin_add_overflow(size, alignment - 16, &all)) all = -1;
  return inner ? block : request(ALIGNED, block, all, frame);
}

void *memalign(size_t alignment, size_t size) { return aligned(alignment, size, TO(memalign)(alignment, size), IS_INNER, FRAME); }
void *aligned_alloc(size_t alignment, size_t size) { return aligned(alignment, size, TO(aligned_alloc)(alignment, size), IS_INNER, FRAME); }
void *valloc(size_t size) { return aligned(getpagesize(), size, TO(valloc)(size), IS_INNER, FRAME); }

void *pvalloc(size_t size) {
  size_t page = getpagesize(), all = size <= -page ? (size + page - 1) / page * page : size;
  return aligned(page, all, TO(pvalloc)(size), IS_INNER, FRAME);
}

int posix_memalign(void **result, size_t alignment, size_t size) {
  int refused = TO(posix_memalign)(result, alignment, size);
  if (refused != EINVAL) aligned(alignment, size, refused ? NULL : *result, IS_INNER, FRAME);
  return refused;
}

#include "executes.h"

// A process may give up system calls: from then on none of its forks may make one for us. On x86-64 that is seen of `syscall` too, which is
// here as glibc has it: it can't go on to that by a frame of its own, since some calls come back twice, or on another
// stack. What runs another program goes on as execve.
int prctl(int option, ...) {
  va_list more;
  va_start(more, option);
  unsigned long words[4];
  for (int i = 0; i < 4; i++) words[i] = va_arg(more, unsigned long);
  va_end(more);
  if (option == PR_SET_SECCOMP) sealed = 1;
  return plain_syscall(SYS_prctl, option, words[0], words[1], words[2], words[3]);
}
#ifdef __x86_64__
__asm__(".globl syscall\n.type syscall, @function\nsyscall:\n"
        "  cmpl $59, %edi\n  je execute_by_number\n  cmpl $322, %edi\n  je execute_by_number\n"  // execve, execveat
        "  cmpl $317, %edi\n  jne plain_syscall\n  movl $1, sealed(%rip)\n"  // seccomp
        ".hidden plain_syscall\n.globl plain_syscall\nplain_syscall:\n"
        "  movq %rdi, %rax\n  movq %rsi, %rdi\n  movq %rdx, %rsi\n  movq %rcx, %rdx\n  movq %r8, %r10\n  movq %r9, %r8\n"
        "  movq 8(%rsp), %r9\n  syscall\n  cmpq $-4095, %rax\n  jae 2f\n  ret\n"
        "2:  negl %eax\n  pushq %rax\n  call __errno_location@PLT\n  popq %rcx\n  movl %ecx, (%rax)\n  movq $-1, %rax\n  ret\n"
        ".size syscall, . - syscall\n");
#endif

// ---- whether the allocator can be followed

static const char *file_of(void *function) {
  Dl_info info;
  int known = dladdr(function, &info) && info.dli_fname && *info.dli_fname;
  return known && strcmp(info.dli_fname, program_invocation_name) ? info.dli_fname : "/proc/self/exe";
}

static int is_same(void *one, void *other) { return !strcmp(file_of(one), file_of(other)); }

// Other calls of an allocator that get or free blocks. Whoever makes them is not seen, so neither are his requests. The last five are of
// the C library, which calls malloc in them; an allocator may have them too.
static int is_other_call(const char *name) {
  static const char *const prefixes[] = {"_Zn", "_Zd", "je_", "tc_", "mi_", "smallocx", "free_"};
  static const char *const names[] = {"mallocx", "rallocx", "xallocx", "dallocx", "sdallocx", "cfree",
                                     "strdup",  "strndup", "realpath", "reallocarray", "reallocf"};
  for (size_t i = 0; i < sizeof prefixes / sizeof *prefixes; i++)
    if (!strncmp(name, prefixes[i], strlen(prefixes[i]))) return 1;
  for (size_t i = 0; i < sizeof names / sizeof *names; i++)
    if (!strcmp(name, names[i])) return 1;
  return 0;
}

// whether an object that is loaded, other than the allocator's own, calls the allocator in a way that is not seen; of that, its place
static int calls_otherwise(struct dl_phdr_info *object, size_t size, void *of) {
  (void)size;
  const ElfW(Dyn) *dynamic = NULL;
  struct part part = {object->dlpi_addr, 0};
  for (int i = 0; i < object->dlpi_phnum; i++) {
    const ElfW(Phdr) *header = &object->dlpi_phdr[i];
    if (header->p_type == PT_DYNAMIC) dynamic = (const void *)(object->dlpi_addr + header->p_vaddr);
    if (header->p_type == PT_LOAD) part.bytes = header->p_vaddr + header->p_memsz;
  }
  if ((uintptr_t)of - part.from < part.bytes) return allocator = part, 0;
  if (!dynamic || !strcmp(object->dlpi_name, "linux-vdso.so.1")) return 0;
  const ElfW(Sym) *symbols = NULL;
  const char *strings = NULL;
  const ElfW(Rela) *bound[2] = {NULL, NULL};  // the relocations name the symbols that the object uses
  size_t bytes[2] = {0, 0};
  for (; dynamic->d_tag != DT_NULL; dynamic++) {
    uintptr_t bias = dynamic->d_un.d_ptr < object->dlpi_addr ? object->dlpi_addr : 0;
    const void *at = (const void *)(dynamic->d_un.d_ptr + bias);
    if (dynamic->d_tag == DT_SYMTAB) symbols = at;
    if (dynamic->d_tag == DT_STRTAB) strings = at;
    if (dynamic->d_tag == DT_RELA) bound[0] = at;
    if (dynamic->d_tag == DT_RELASZ) bytes[0] = dynamic->d_un.d_val;
    if (dynamic->d_tag == DT_JMPREL) bound[1] = at;
    if (dynamic->d_tag == DT_PLTRELSZ) bytes[1] = dynamic->d_un.d_val;
  }
  for (int k = 0; symbols && strings && k < 2; k++)
    for (size_t i = 0; bound[k] && i < bytes[k] / sizeof(ElfW(Rela)); i++) {
      const ElfW(Sym) *symbol = symbols + ELF64_R_SYM(bound[k][i].r_info);
      if (symbol->st_shndx != SHN_UNDEF || !is_other_call(strings + symbol->st_name)) continue;
      void *other = dlsym(RTLD_NEXT, strings + symbol->st_name);
      if (other && is_same(other, of)) return 1;
    }
  return 0;
}

// Whether the program's malloc is the library's: of two, the loader takes the first. A program at a fixed place may have a stub of its own,
// which leads to the one that it lacks; where that is tells a call.
static int is_reached(void *bound) {
  Dl_info info;
  const ElfW(Sym) *symbol = NULL;
  if (is_same(bound, (void *)begin)) return 1;
  if (!dladdr1(bound, &info, (void **)&symbol, RTLD_DL_SYMENT) || !symbol || symbol->st_shndx != SHN_UNDEF) return 0;
  reached = 0;
  void *block = ((void *(*)(size_t))bound)(1);
  if (reached) next.free(block);
  return reached;
}

// Whether the allocator can be followed; notes another one than glibc's.
static int can_follow(void) {
  void *libc = dlsym(RTLD_NEXT, "gnu_get_libc_version"), *bound = dlsym(RTLD_DEFAULT, "malloc"), *from = (void *)next.malloc;
  int is_ours = is_reached(bound);
  if (is_ours && libc && is_same(libc, from)) return 1;
  if (!is_ours) from = bound;
  int is_whole = is_same(from, (void *)next.free) && is_same(from, (void *)next.realloc) && is_same(from, (void *)next.calloc);
  int follows = is_ours && is_whole && !dl_iterate_phdr(calls_otherwise, from);
  char path[PATH_MAX];
  snprintf(stream->allocator, NAME, "%.*s", NAME - 1, realpath(file_of(from), path) ? path : file_of(from));
  __atomic_fetch_add(follows ? &stream->foreign : &stream->untouched, 1, __ATOMIC_RELAXED);
  return follows;
}

__attribute__((constructor)) static void start(void) {
  const char *name = getenv("MTE_STREAM");
  Dl_info info;
  if (!found) find();
  if (dladdr((void *)begin, &info) && strlen(info.dli_fname) < sizeof own_name) strcpy(own_name, info.dli_fname);
  at_first.state = OFF;
  if (!name || !*name || strlen(name) >= sizeof file) return;
  strcpy(file, name), is_service = strncmp(file, "/proc/", 6) != 0;
  struct place *own = mmap(NULL, PAGE, PROT_READ | PROT_WRITE, MAP_PRIVATE | MAP_ANONYMOUS, -1, 0);
  if (own == MAP_FAILED) return;
  here = own;
  begin();
  int writes = own->state == WRITES;
  own->state = OFF;
  if (!writes || !can_follow()) {
    here = &at_first;  // in its forks too
    return;
  }
  own->ring->overrun = early_ring.overrun, own->state = WRITES;
  put_early();
}
