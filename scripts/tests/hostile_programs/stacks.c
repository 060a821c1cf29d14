// Programs with stacks of their own: fibres, handlers, threads, and calls from where no table tells of frames.
#include "hostile.h"
#include <ucontext.h>

enum { FIBRES = 8, TURNS = 30, BYTES = 1 << 16 };

static char *anonymous(size_t bytes) {
  return mmap(NULL, bytes, PROT_READ | PROT_WRITE, MAP_PRIVATE | MAP_ANONYMOUS, -1, 0);
}

// ---- by the C library

static ucontext_t contexts[FIBRES], of_main;
static void in_context(int number) {
  for (int i = 0; i < TURNS; i++) request(2), swapcontext(&contexts[number], &of_main);
}
static int run_contexts(int how) {
  for (int i = 0; i < FIBRES; i++) {
    char *stack = how == 0 ? malloc(BYTES) : anonymous(BYTES);
    if (how == 2) mprotect(stack, 4096, PROT_NONE);
    getcontext(&contexts[i]);
    contexts[i].uc_stack.ss_sp = stack, contexts[i].uc_stack.ss_size = BYTES, contexts[i].uc_link = &of_main;
    makecontext(&contexts[i], (void (*)(void))in_context, 1, i);
  }
  for (int k = 0; k <= TURNS; k++)
    for (int i = 0; i < FIBRES; i++) swapcontext(&of_main, &contexts[i]);
  return 0;
}
PROGRAM(contexts_in_heap, "contexts in the heap") { return run_contexts(0); }
PROGRAM(contexts_guarded, "contexts with a guard") { return run_contexts(2); }

static void *contexts_thread(void *unused) { return run_contexts(1), unused; }
PROGRAM(contexts_of_threads, "contexts of a thread") {
  pthread_t thread;
  return pthread_create(&thread, NULL, contexts_thread, NULL) || pthread_join(thread, NULL);
}

// ---- by hand

#ifdef __x86_64__
static void *fibres[FIBRES], *main_stack;
static int now, done[FIBRES];
__attribute__((naked, noinline)) static void change(void **from, void *to) {
  __asm__(
      "push %rbp; push %rbx; push %r12; push %r13; push %r14; push %r15; mov %rsp, (%rdi); mov %rsi, %rsp;"
      "pop %r15; pop %r14; pop %r13; pop %r12; pop %rbx; pop %rbp; ret");
}
__attribute__((noinline, force_align_arg_pointer)) static void entry(void) {
  int me = now;
  for (int k = 0; k < TURNS; k++) request(3), change(&fibres[me], main_stack);
  done[me] = 1, change(&fibres[me], main_stack);
}
static void begin_fibre(int i, char *top, uint64_t word) {
  uint64_t *at = (uint64_t *)top;
  *--at = (uint64_t)entry;
  for (int k = 0; k < 6; k++) *--at = word;
  fibres[i] = at, done[i] = 0;
}
static int turn_fibres(void) {
  for (int k = 0; k <= TURNS; k++)
    for (int i = 0; i < FIBRES; i++)
      if (!done[i]) now = i, change(&main_stack, fibres[i]);
  return 0;
}
PROGRAM(at_the_top, "fibres at the top of their mapping") {
  for (int i = 0; i < FIBRES; i++) {
    char *stack = anonymous(BYTES + 4096);
    mprotect(stack, 4096, PROT_NONE), mprotect(stack + BYTES, 4096, PROT_NONE);
    begin_fibre(i, stack + BYTES, 0);
  }
  return turn_fibres();
}
PROGRAM(with_garbage, "fibres with garbage in their registers") {
  for (int i = 0; i < FIBRES; i++) begin_fibre(i, anonymous(BYTES) + BYTES - 64, 0x4141414141414141);
  return turn_fibres();
}
static char static_stacks[FIBRES][BYTES] __attribute__((aligned(4096)));
PROGRAM(static_fibres, "fibres in the program") {
  for (int i = 0; i < FIBRES; i++) begin_fibre(i, static_stacks[i] + BYTES, (uint64_t)static_stacks[i]);
  return turn_fibres();
}
PROGRAM(on_the_stack, "fibres on the first stack") {
  char stacks[FIBRES][BYTES];
  for (int i = 0; i < FIBRES; i++) begin_fibre(i, (char *)((uintptr_t)stacks[i + 1] & -16), (uint64_t)&stacks[i][0]);
  return turn_fibres();
}
// below the first thread's stack, with nothing mapped between
extern void *__libc_stack_end;
#ifdef __GLIBC__
PROGRAM(below_the_stack, "fibres below the first stack") {
  char *end = (char *)((uintptr_t)__libc_stack_end & -4096), *from = end - (6 << 20);
  for (int i = 0; i < FIBRES; i++) {
    char *stack = mmap(from - (i + 1) * 2 * BYTES, BYTES, PROT_READ | PROT_WRITE,
                       MAP_PRIVATE | MAP_ANONYMOUS | MAP_FIXED_NOREPLACE, -1, 0);
    if (stack == MAP_FAILED) return 1;
    begin_fibre(i, stack + BYTES, (uint64_t)stack + BYTES);
  }
  return turn_fibres();
}
#endif
static void *turn(void *unused) { return turn_fibres(), unused; }
PROGRAM(move, "fibres that move between threads") {
  for (int i = 0; i < FIBRES; i++) begin_fibre(i, anonymous(BYTES) + BYTES, 0);
  for (int k = 0; k < 4; k++) {
    for (int i = 0; i < FIBRES; i++) now = i, change(&main_stack, fibres[i]);
    pthread_t thread;
    if (pthread_create(&thread, NULL, turn, NULL) || pthread_join(thread, NULL)) return 1;
    for (int i = 0; i < FIBRES; i++) begin_fibre(i, (char *)fibres[i] + 48, 0);
  }
  return 0;
}
// a call from a page that no object has, with any rbp
__attribute__((naked, noinline)) static void *call_from_page(void *page, size_t size, uint64_t bp) {
  __asm__(
      "push %rbp; push %rbx; sub $8, %rsp; mov %rdx, %rbp; mov %rdi, %rax; mov %rsi, %rdi; call *%rax;"
      "add $8, %rsp; pop %rbx; pop %rbp; ret");
}
PROGRAM(generated, "calls from generated code") {
  uint8_t code[] = {0x48, 0x83, 0xec, 0x08, 0x48, 0xb8, 0,    0,    0,    0,   0,
                    0,    0,    0,    0xff, 0xd0, 0x48, 0x83, 0xc4, 0x08, 0xc3};
  char *page = anonymous(4096);
  void *(*of)(size_t) = malloc;
  memcpy(code + 6, &of, 8), memcpy(page, code, sizeof code), mprotect(page, 4096, PROT_READ | PROT_EXEC);
  for (int i = 0; i < 1000; i++) free(call_from_page(page, 3333, i * 0x123456789ULL));
  return 0;
}
#endif

// ---- by signals

static void on_request(int number) { (void)number, request(1); }
static int on_other_stack(size_t bytes) {
  stack_t stack = {.ss_sp = malloc(bytes), .ss_size = bytes};
  struct sigaction action = {.sa_handler = on_request, .sa_flags = SA_ONSTACK};
  if (sigaltstack(&stack, NULL) || sigaction(SIGUSR1, &action, NULL)) return 1;
  for (int i = 0; i < 500; i++) raise(SIGUSR1), request(1);
  return 0;
}
PROGRAM(other_stack, "handlers on a stack of their own") { return on_other_stack(64 << 10); }
PROGRAM(small_stack, "handlers on the smallest stack") { return on_other_stack(sysconf(_SC_MINSIGSTKSZ) + 1200); }
static void *other_stack_thread(void *unused) { return on_other_stack(16 << 10) ? NULL : unused; }
PROGRAM(stacks_of_threads, "handlers on stacks of threads") {
  pthread_t threads[8];
  for (int i = 0; i < 8; i++)
    if (pthread_create(&threads[i], NULL, other_stack_thread, NULL)) return 1;
  for (int i = 0; i < 8; i++) pthread_join(threads[i], NULL);
  return 0;
}

// coroutines that begin in a handler on another stack, and go on by longjmp
static jmp_buf within, outside;
static void begin_here(int number) {
  (void)number;
  if (!setjmp(within)) return;
  for (int i = 0; i < 100; i++) {
    request(1);
    if (!setjmp(within)) longjmp(outside, 1);
  }
  longjmp(outside, 2);
}
PROGRAM(jumps, "coroutines by jumps") {
  stack_t stack = {.ss_sp = anonymous(BYTES), .ss_size = BYTES}, none = {.ss_flags = SS_DISABLE};
  struct sigaction action = {.sa_handler = begin_here, .sa_flags = SA_ONSTACK};
  if (sigaltstack(&stack, NULL) || sigaction(SIGUSR1, &action, NULL) || raise(SIGUSR1) || sigaltstack(&none, NULL))
    return 1;
  volatile int turns = 0;
  int how = setjmp(outside);
  if (how < 2) turns++, request(1), longjmp(within, 1);
  show(turns);
  return 0;
}

// ---- of threads and processes

static int in_clone(void *word) { return request(20), *(int *)word = 1, 0; }
static int run_clone(int flags, size_t offset) {
  volatile int seen = 0;
  char *stack = anonymous(BYTES);
  pid_t child = clone(in_clone, stack + BYTES - offset, flags | SIGCHLD, (void *)&seen);
  if (child < 0) return 1;
  show(ended(child)), show(seen), request(2);
  return 0;
}
PROGRAM(clone_shared, "clone that shares memory") { return run_clone(CLONE_VM | CLONE_FILES, 64); }
PROGRAM(clone_waits, "clone that is waited for") { return run_clone(CLONE_VM | CLONE_VFORK, 0); }
PROGRAM(clone_copied, "clone with a copy") { return run_clone(0, 4096); }

static void *small_thread(void *unused) { return request(10), unused; }
static int run_thread(size_t bytes, void *stack, void *(*function)(void *)) {
  pthread_attr_t attributes;
  pthread_t thread;
  pthread_attr_init(&attributes);
  if (stack ? pthread_attr_setstack(&attributes, stack, bytes) : pthread_attr_setstacksize(&attributes, bytes))
    return 1;
  return pthread_create(&thread, &attributes, function, NULL) || pthread_join(thread, NULL);
}
PROGRAM(small_threads, "threads with the smallest stack") {
  for (int i = 0; i < 50; i++)
    if (run_thread(sysconf(_SC_THREAD_STACK_MIN), NULL, small_thread)) return 1;
  return 0;
}
PROGRAM(given_stacks, "threads with stacks that are given") {
  char *stack = anonymous(1 << 20);
  for (int i = 0; i < 50; i++)
    if (run_thread(64 << 10, stack + i * 16384, small_thread)) return 1;
  return 0;
}

static int deep(int number) {
  volatile char room[64] = {0};
  if (!number) return request(10), room[0];
  if (number % 10000 == 0) request(1);
  return deep(number - 1) + room[number % 64];
}
static void *deep_thread(void *unused) { return deep(40000) ? NULL : unused; }
PROGRAM(deep_calls, "deep calls") { return deep(40000) || run_thread(64 << 20, NULL, deep_thread); }
PROGRAM(large_frame, "a large frame") {
  volatile char *room = __builtin_alloca(5 << 20);
  for (int i = 0; i < 5 << 20; i += 4096) room[i] = 1;
  request(10);
  return 0;
}
