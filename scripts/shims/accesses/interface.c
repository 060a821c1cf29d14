// What else of AddressSanitizer's interface a program may call: what it asks of an address, the heap and the leaks. What has no meaning here
// answers as the headers say where there is nothing. poison.c and stacks.c have the rest.
#include "calls.h"

static struct block *live_block(const volatile void *at) {
  struct block *block = owner((address)at);
  return block && block->state == LIVE && block->start == (address)at ? block : NULL;
}

// the block that an address is in
static struct block *block_around(const volatile void *at) {
  struct block *block = owner((address)at);
  return block && (address)at - block->start < (block->size ? block->size : 1) ? block : NULL;
}

SHOWN void __asan_describe_address(void *at) { describe((address)at); }

SHOWN const char *__asan_locate_address(void *at, char *name, size_t size, void **start, size_t *bytes) {
  struct block *block = block_around(at);
  if (size) *name = 0;
  if (!block) return "unknown";
  *start = (void *)block->start, *bytes = block->size;
  return "heap";
}

// the last error, as far as it is known
SHOWN int __asan_report_present(void) { return last_told.letter != 0; }
SHOWN void *__asan_get_report_pc(void) { return (void *)last_told.stack.pcs[0]; }
SHOWN void *__asan_get_report_bp(void) { return NULL; }
SHOWN void *__asan_get_report_sp(void) { return NULL; }
SHOWN void *__asan_get_report_address(void) { return (void *)last_told.at; }
SHOWN int __asan_get_report_access_type(void) { return last_told.letter == 'S' || last_told.letter == 'Q'; }
SHOWN size_t __asan_get_report_access_size(void) { return last_told.size; }
SHOWN const char *__asan_get_report_description(void) {
  switch (last_told.letter) {
    case 0: return "";
    case 'P': case 'Q': return "use-after-poison";
    case 'y': return "alloc-dealloc-mismatch";
    case 'x': case 'o': case 'n': return last_told.is_freed ? "attempting double-free" : "attempting free on address which was not malloc()-ed";
    default: return last_told.is_freed ? "heap-use-after-free" : "heap-buffer-overflow";
  }
}
SHOWN void __asan_report_error(void *pc, void *bp, void *sp, void *at, int is_store, size_t size) {
  (void)pc, (void)bp, (void)sp, report_access((address)at, size, is_store != 0, CALLER);
}
SHOWN size_t __asan_get_alloc_stack(void *at, void **trace, size_t size, int *thread) { return (void)at, (void)trace, (void)size, (void)thread, 0; }
SHOWN size_t __asan_get_free_stack(void *at, void **trace, size_t size, int *thread) { return (void)at, (void)trace, (void)size, (void)thread, 0; }
SHOWN void __asan_get_shadow_mapping(size_t *scale, size_t *offset) { *scale = 3, *offset = SHADOW_OFFSET; }
SHOWN void __asan_set_death_callback(void (*callback)(void)) { (void)callback; }  // no error ends the program
SHOWN void __sanitizer_set_death_callback(void (*callback)(void)) { (void)callback; }
SHOWN void __asan_set_error_report_callback(void (*callback)(const char *)) { report_callback = callback; }
SHOWN void __asan_print_accumulated_stats(void) {}
SHOWN void *__asan_get_current_fake_stack(void) { return NULL; }
SHOWN void *__asan_addr_is_in_fake_stack(void *stack, void *at, void **begin, void **end) { return (void)stack, (void)at, (void)begin, (void)end, NULL; }
SHOWN int __asan_update_allocation_context(void *at) { return (void)at, 0; }
SHOWN void __asan_init(void) {}

SHOWN size_t __sanitizer_get_estimated_allocated_size(size_t size) { return size; }
SHOWN int __sanitizer_get_ownership(const volatile void *at) { return live_block(at) != NULL; }
SHOWN size_t __sanitizer_get_allocated_size(const volatile void *at) { return live_block(at) ? live_block(at)->size : 0; }
SHOWN size_t __sanitizer_get_current_allocated_bytes(void) {
  size_t bytes = 0;
  enter();
  for (uint32_t number = 1; number <= number_of_blocks(); number++) bytes += BLOCKS[number].state == LIVE ? BLOCKS[number].size : 0;
  leave();
  return bytes;
}
SHOWN size_t __sanitizer_get_heap_size(void) { return __sanitizer_get_current_allocated_bytes(); }
SHOWN size_t __sanitizer_get_free_bytes(void) { return 0; }
SHOWN size_t __sanitizer_get_unmapped_bytes(void) { return 0; }
SHOWN int __sanitizer_install_malloc_and_free_hooks(void (*of_malloc)(const volatile void *, size_t), void (*of_free)(const volatile void *)) {
  return (void)of_malloc, (void)of_free, 0;
}
SHOWN void __sanitizer_purge_allocator(void) {}
SHOWN void __sanitizer_print_memory_profile(size_t percent, size_t number) { (void)percent, (void)number; }

SHOWN void __sanitizer_set_report_path(const char *path) { (void)path; }  // find_faults says where the report goes
SHOWN void __sanitizer_set_report_fd(void *file) { (void)file; }
SHOWN const char *__sanitizer_get_report_path(void) { return "stderr"; }
SHOWN void __sanitizer_sandbox_on_notify(void *arguments) { (void)arguments; }
SHOWN void __sanitizer_report_error_summary(const char *summary) { tell_line(summary); }
SHOWN int __sanitizer_acquire_crash_state(void) { return 1; }
SHOWN void __sanitizer_print_stack_trace(void) { print_stack(CALLER); }

SHOWN int __sanitizer_get_module_and_offset_for_pc(void *pc, char *path, size_t size, void **offset) {
  enter();
  const struct module *module = module_of((address)pc);
  int is_known = module && module->path;
  if (is_known && size) {
    size_t n = strlen(module->path) < size - 1 ? strlen(module->path) : size - 1;
    copy_bytes(path, module->path, n), path[n] = 0;
  }
  if (is_known) *offset = (void *)((address)pc - module->low + module->offset);
  leave();
  return is_known;
}

// there are no names here: find_faults asks for them
SHOWN void __sanitizer_symbolize_pc(void *pc, const char *format, char *to, size_t size) { (void)pc, (void)format, size ? (void)(*to = 0) : (void)0; }
SHOWN void __sanitizer_symbolize_global(void *at, const char *format, char *to, size_t size) { (void)at, (void)format, size ? (void)(*to = 0) : (void)0; }

// an access that the compiler does not see by halves
#define UNALIGNED(bits) \
  SHOWN uint##bits##_t __sanitizer_unaligned_load##bits(const void *at) { \
    uint##bits##_t value; \
    touch(at, sizeof value, 0, CALLER), copy_bytes(&value, at, sizeof value); \
    return value; \
  } \
  SHOWN void __sanitizer_unaligned_store##bits(void *at, uint##bits##_t value) { touch(at, sizeof value, 1, CALLER), copy_bytes(at, &value, sizeof value); }
UNALIGNED(16)
UNALIGNED(32)
UNALIGNED(64)

// Leaks. What the program asks to pass over is logged.
__thread int is_unwatched __attribute__((tls_model("initial-exec")));
SHOWN void __lsan_disable(void) { is_unwatched++; }
SHOWN void __lsan_enable(void) { is_unwatched--; }
SHOWN void __lsan_ignore_object(const void *at) {
  enter();
  struct block *block = block_around(at);
  if (block && block->state == LIVE && is_logging()) put_record('i', 1, (long)(block - BLOCKS)), put_end();
  leave();
}
SHOWN void __lsan_do_leak_check(void) {}  // find_faults --unfreed tells leaks, at the end
SHOWN int __lsan_do_recoverable_leak_check(void) { return 0; }
