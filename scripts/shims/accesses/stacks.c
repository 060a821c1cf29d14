// Stacks of return addresses. Where a block is requested or freed they come from the frames of the program's functions, which traced_cc keeps,
// and each is logged once. Where an error is told, or a library of the system requests, the unwinder of the compiler finds them, through
// functions that have no frame too.
#include "accesses.h"
#include <unwind.h>

enum { STACKS = 1 << 18, MODULES = 256, MOST_SKIPPED = 64, FRAMES_OF_UNNUMBERED = 4, KNOWN_STACKS = 64, MOST_UNWOUND = 200000 };
static struct module modules[MODULES];
static int number_of_modules;
static char paths[1 << 16];
static size_t paths_end;
static __thread address stack_low __attribute__((tls_model("initial-exec"))), stack_high __attribute__((tls_model("initial-exec")));

static void add_module(const struct mapping *new, void *unused) {
  (void)unused;
  if (new->mode[2] != 'x' || !new->path || number_of_modules == MODULES || !is_logging()) return;
  for (int i = 0; i < number_of_modules; i++)
    if (modules[i].low == new->low && modules[i].high == new->high) return;
  size_t length = strlen(new->path) + 1;
  struct module *module = &modules[number_of_modules++];
  *module = (struct module){new->low, new->high, new->offset, NULL};
  if (length <= sizeof paths - paths_end) copy_bytes(paths + paths_end, new->path, length), module->path = paths + paths_end, paths_end += length;
  address numbers[] = {new->low, new->high, new->offset};
  put_text("M");
  for (int i = 0; i < 3; i++) put_text(" "), put_number(numbers[i], 16);
  put_text(" "), put_text(new->path), put_end();
}

static void find_bounds(const struct mapping *new, void *at) {
  if (new->low <= (address)at && (address)at < new->high) stack_low = new->low, stack_high = new->high;
}

// Where the stacks end that threads were on last, as fibers have theirs: in one table, since a library that a program loads has little room
// for what each thread has of its own. What unmaps or protects memory makes all unknown.
struct known { address low, high; unsigned turn, change; };  // the turn is odd while it is written
static struct known known_stacks[KNOWN_STACKS];
static unsigned next_known, changes;           // of the mappings,
static address lowest = -(address)1, highest;  // among which all these stacks lie

static int is_on(const struct known *known, address to, unsigned change) {
  unsigned turn = __atomic_load_n(&known->turn, __ATOMIC_ACQUIRE);
  address low = __atomic_load_n(&known->low, __ATOMIC_RELAXED), high = __atomic_load_n(&known->high, __ATOMIC_RELAXED);
  if (to < low || to >= high || turn % 2 || __atomic_load_n(&known->change, __ATOMIC_RELAXED) != change) return 0;
  __atomic_thread_fence(__ATOMIC_ACQUIRE);
  if (__atomic_load_n(&known->turn, __ATOMIC_RELAXED) != turn) return 0;
  stack_low = low, stack_high = high;
  return 1;
}

static void note_stack(unsigned change) {
  struct known *known = &known_stacks[__atomic_fetch_add(&next_known, 1, __ATOMIC_RELAXED) % KNOWN_STACKS];
  unsigned turn = __atomic_load_n(&known->turn, __ATOMIC_RELAXED);
  if (turn % 2 || !__atomic_compare_exchange_n(&known->turn, &turn, turn + 1, 0, __ATOMIC_ACQ_REL, __ATOMIC_RELAXED)) return;
  __atomic_store_n(&known->low, stack_low, __ATOMIC_RELAXED), __atomic_store_n(&known->high, stack_high, __ATOMIC_RELAXED);
  __atomic_store_n(&known->change, change, __ATOMIC_RELAXED);
  __atomic_store_n(&known->turn, turn + 2, __ATOMIC_RELEASE);
}

static void change_stack(address to) {
  unsigned change = __atomic_load_n(&changes, __ATOMIC_RELAXED);
  stack_low = stack_high = 0;
  for (int i = 0; i < KNOWN_STACKS; i++)
    if (is_on(&known_stacks[i], to, change)) return;
  see_mappings(find_bounds, (void *)to);
  note_stack(change);
  if (stack_low < lowest) lowest = stack_low;
  if (stack_high > highest) highest = stack_high;
}

static void forget_stacks(address from, size_t size) {
  if (from >= highest || from + size <= lowest) return;
  __atomic_add_fetch(&changes, 1, __ATOMIC_RELAXED);
  stack_low = stack_high = 0;
}

SHOWN int munmap(void *at, size_t size) {
  forget_stacks((address)at, size);
  return syscall(SYS_munmap, at, size);
}

SHOWN int mprotect(void *at, size_t size, int mode) {
  forget_stacks((address)at, size);
  return syscall(SYS_mprotect, at, size, mode);
}

// the program says where the stack is that it goes to
SHOWN void __sanitizer_start_switch_fiber(void **fake, const void *bottom, size_t size) {
  if (fake) *fake = NULL;
  (void)bottom, (void)size;
}

SHOWN void __sanitizer_finish_switch_fiber(void *fake, const void **bottom, size_t *size) {
  (void)fake;
  if (bottom) *bottom = (const void *)stack_low;
  if (size) *size = stack_high - stack_low;
}

const struct module *module_of(address pc) {
  for (int i = 0; i < number_of_modules; i++)
    if (modules[i].low <= pc && pc < modules[i].high) return &modules[i];
  return NULL;
}

void learn_modules(void) { see_mappings(add_module, NULL); }

static void find_module(address pc) {
  static address missed;
  if (module_of(pc) || missed == pc) return;
  missed = pc;
  learn_modules();
}

// the return addresses on the stack above an address in it, by its frames
void walk(struct caller from, address below, struct stack *to) {
  address *frame = from.frame;
  if (below < stack_low || below >= stack_high) change_stack(below);
  to->pcs[to->count++] = from.pc;
  while (to->count < FRAMES && (address)frame > below && (address)frame % sizeof *frame == 0 && (address)(frame + 2) <= stack_high) {
    if (frame[1] < 4096) break;
    to->pcs[to->count++] = frame[1];
    below = (address)frame;
    frame = (address *)frame[0];
  }
}

struct search { address from; int skipped; struct stack *to; };

static _Unwind_Reason_Code see_frame(struct _Unwind_Context *context, void *data) {
  struct search *search = data;
  int is_exact = 0;  // where a signal came, and no call
  address pc = _Unwind_GetIPInfo(context, &is_exact);
  if (!search->to->count && pc != search->from) return search->skipped++ < MOST_SKIPPED ? _URC_NO_REASON : _URC_END_OF_STACK;
  if (pc < 4096 && search->to->count) return _URC_END_OF_STACK;
  search->to->pcs[search->to->count++] = pc + !!is_exact;
  return search->to->count < FRAMES ? _URC_NO_REASON : _URC_END_OF_STACK;
}

// The same by the unwinder, which may wait for locks of the loader: the caller holds none of ours.
void unwind(struct caller from, struct stack *to) {
  struct search search = {from.pc, 0, to};
  int error = errno;
  to->count = 0;
  busy++;
  _Unwind_Backtrace(see_frame, &search);
  busy--;
  errno = error;
}

void put_frames(const struct stack *stack) {
  static struct { address hash; uint32_t number; } stacks[STACKS];
  static uint32_t number_of_stacks;
  int n = stack->count;
  address hash = n;
  for (int i = 0; i < n; i++) hash = (hash ^ stack->pcs[i]) * 0x9E3779B97F4A7C15u, hash ^= hash >> 29;
  uint32_t at = hash % STACKS;
  while (stacks[at].number && stacks[at].hash != hash) at = (at + 1) % STACKS;
  int is_new = !stacks[at].number;
  if (is_new && number_of_stacks < STACKS / 4 * 3) stacks[at].hash = hash, stacks[at].number = ++number_of_stacks;
  else if (is_new && n > FRAMES_OF_UNNUMBERED) n = FRAMES_OF_UNNUMBERED;  // it will be logged again and again
  put_text(" "), put_number(stacks[at].number, 10);
  for (int i = 0; is_new && i < n; i++) put_text(i ? "," : ":"), put_number(stack->pcs[i], 16);
  put_end();
  for (int i = 0; is_new && i < n; i++) find_module(stack->pcs[i]);
}

void put_stack(struct caller from, struct stack *stack) {
  if (!stack->count) walk(from, (address)__builtin_frame_address(0), stack);
  put_frames(stack);
}

// whether a module is the system's, and keeps no frames; the loader itself is not waited for
static int is_without_frames(address pc) {
  static __thread struct { address low, high; int answer; } last __attribute__((tls_model("initial-exec")));
  if (last.low <= pc && pc < last.high) return last.answer;
  const struct module *module = module_of(pc);
  if (!module || !module->path) return 0;
  int is_system = begins(module->path, "/usr/lib") || begins(module->path, "/lib");
  last.low = module->low, last.high = module->high, last.answer = is_system && !strstr(module->path, "/ld-");
  return last.answer;
}

// The stack of a request or a free by a library of the system, as those of C++ make them: the program's own lines are above it. This is slow, so
// it is done some hundred thousand times, and before the lock is held.
void unwind_request(struct caller from, struct stack *to) {
  static long unwound;
  to->count = 0;
  if (!busy && has_log() && is_without_frames(from.pc) && __atomic_load_n(&unwound, __ATOMIC_RELAXED) < MOST_UNWOUND) {
    __atomic_add_fetch(&unwound, 1, __ATOMIC_RELAXED);
    unwind(from, to);
  }
}
