// The signals by which a program ends through its own fault. A handler on a stack of its own logs and tells where it came from, and passes it
// on: the program ends by it as without the handler. A program's own handler takes its place.
#include "calls.h"
#include <setjmp.h>
#include <signal.h>
#include <ucontext.h>

static const int CRASHES[] = {SIGSEGV, SIGBUS, SIGABRT, SIGFPE, SIGILL};
enum { STACK_SIZE = 1 << 17 };
static int is_watching, has_crashed;
static pthread_key_t of_thread;
static __thread int has_stack __attribute__((tls_model("initial-exec")));
static sigjmp_buf without_stack;
static volatile sig_atomic_t is_guarded;

// where the signal came, and the stack then
static struct caller place_of(const ucontext_t *context, address *stack) {
#if defined __x86_64__
  const greg_t *registers = context->uc_mcontext.gregs;
  *stack = registers[REG_RSP];
  return (struct caller){registers[REG_RIP], (address *)registers[REG_RBP]};
#elif defined __aarch64__
  *stack = context->uc_mcontext.sp;
  return (struct caller){context->uc_mcontext.pc, (address *)context->uc_mcontext.regs[29]};
#else
  (void)context, *stack = 0;
  return (struct caller){0, NULL};
#endif
}

// The stack may be spoilt, so a signal that comes here leaves what was found.
static void find_stack(const ucontext_t *context, struct stack *to) {
  address stack;
  struct caller at = place_of(context, &stack);
  is_guarded = 1;
  if (!sigsetjmp(without_stack, 1)) unwind(at, to);
  if (to->count < 2 && !sigsetjmp(without_stack, 1)) {
    to->count = 0;
    if (!module_of(at.pc)) {  // a wrong pointer was called
      to->pcs[to->count++] = at.pc + 1;
      at.pc = *(address *)stack;
      walk(at, stack, to);
    } else {
      walk(at, stack, to);
      to->pcs[0]++;
    }
  }
  is_guarded = 0;
}

static void log_crash(int number, const siginfo_t *info, const ucontext_t *context) {
  static struct wrong crash;
  int was_busy = busy;  // in the runtime, maybe with its lock
  int is_of_address = (number == SIGSEGV || number == SIGBUS) && info->si_code > 0 && info->si_code < SI_KERNEL;
  crash = (struct wrong){.letter = 'C', .signal = number, .at = is_of_address ? (address)info->si_addr : 0, .offset = is_of_address};
  find_stack(context, &crash.stack);
  if (was_busy) busy++, drop_begun();
  else enter();
  if (has_room()) {
    put_record('C', 2, (long)number, (long)info->si_code);
    put_text(" "), put_number(crash.at, 16);
    put_frames(&crash.stack);
    will_tell(&crash);
  }
  if (was_busy) busy--;
  else leave();
  if (has_to_tell) tell();
  end_log(CRASHED);
}

static void crash(int number, siginfo_t *info, void *context) {
  if (is_guarded) siglongjmp(without_stack, 1);
  int error = errno;
  if (!__atomic_exchange_n(&has_crashed, 1, __ATOMIC_RELAXED)) log_crash(number, info, context);
  struct sigaction ending = {.sa_handler = SIG_DFL};
  sigaction(number, &ending, NULL);
  if (info->si_code <= 0 || number == SIGABRT) syscall(SYS_tgkill, syscall(SYS_getpid), syscall(SYS_gettid), number);
  errno = error;  // the kernel's own signals come again where they came from
}

static void remove_stack(void *stack) {
  stack_t none = {.ss_flags = SS_DISABLE};
  sigaltstack(&none, NULL);
  munmap(stack, STACK_SIZE);
}

// gives the thread a stack for the handler, since its own may be full
void watch_thread(void) {
  if (has_stack || !is_watching) return;
  int error = errno;
  has_stack = 1;
  stack_t stack, old;
  if (!sigaltstack(NULL, &old) && old.ss_flags & SS_DISABLE) {
    stack = (stack_t){.ss_sp = mmap(NULL, STACK_SIZE, PROT_READ | PROT_WRITE, MAP_PRIVATE | MAP_ANONYMOUS, -1, 0), .ss_size = STACK_SIZE};
    if (stack.ss_sp != MAP_FAILED && !sigaltstack(&stack, NULL)) busy++, pthread_setspecific(of_thread, stack.ss_sp), busy--;
  }
  errno = error;
}

// A thread begins with its stack for the handler, whose first bytes say what it runs.
struct start { void *(*run)(void *), *given; };

static void *begin_thread(void *at) {
  struct start start = *(struct start *)at;
  stack_t stack = {.ss_sp = at, .ss_size = STACK_SIZE};
  has_stack = 1;
  busy++;
  if (!sigaltstack(&stack, NULL)) pthread_setspecific(of_thread, at);
  busy--;
  return start.run(start.given);
}

SHOWN int pthread_create(pthread_t *thread, const pthread_attr_t *how, void *(*run)(void *), void *given) {
  REAL(pthread_create);
  if (!is_watching) return real(thread, how, run, given);
  void *stack = mmap(NULL, STACK_SIZE, PROT_READ | PROT_WRITE, MAP_PRIVATE | MAP_ANONYMOUS, -1, 0);
  if (stack == MAP_FAILED) return real(thread, how, run, given);
  *(struct start *)stack = (struct start){run, given};
  int failed = real(thread, how, begin_thread, stack);
  if (failed) munmap(stack, STACK_SIZE);
  return failed;
}

void watch_for_crashes(void) {
  if (pthread_key_create(&of_thread, remove_stack)) return;
  is_watching = 1;
  watch_thread();
  for (size_t i = 0; i < sizeof CRASHES / sizeof *CRASHES; i++) {
    struct sigaction handler = {.sa_sigaction = crash, .sa_flags = SA_SIGINFO | SA_ONSTACK | SA_NODEFER}, old;
    if (!sigaction(CRASHES[i], NULL, &old) && old.sa_handler == SIG_DFL) sigaction(CRASHES[i], &handler, NULL);
  }
}
