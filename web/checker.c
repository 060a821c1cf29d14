/* The checker for any host of WebAssembly: the commands `check` and `check-fit`, two texts in, the verdict out. It imports nothing, and
   exports its memory. Numbers are of 32 bits. The verdict is the proved engine's; nothing is proved of this file.

       take(length)                      a place for a text in the memory; 0 where there is none left
       give(place)                       gives one back
       check(first, length, input, length), check_fit(first, length, input, length)
                                         how the call ends: 0 'optimal', 1 the verdict is no, 2 a text is refused,
                                         3 out of memory, 5 INPUT is empty
       check_claim(..), check_fit_claim(..)
                                         the same; after 'optimal' a line says what was shown, as `check --claim` does
       answer(), answer_length()         where the last call's answer is, and its bytes: the verdict, or the first fault,
                                         as "30 BadLine line 2"; it is there until the next call, of which it may be a
                                         text

   FIRST is a sheet or a fit, INPUT what was counted, as in docs/FORMATS.md. An empty INPUT would be the profile that
   counts nothing, for which each table is a best one. It is refused, since it is what a host has of a file that it could
   not read. A place outside of the memory ends in a trap, after which the instance is of no more use. */

/* the toolchain's clang has no headers */
typedef __SIZE_TYPE__ size_t;
typedef __UINT8_TYPE__ uint8_t;
typedef __UINT32_TYPE__ uint32_t;
typedef __UINT64_TYPE__ uint64_t;
typedef __UINTPTR_TYPE__ uintptr_t;

enum { CHECK = 2, CHECK_FIT = 5 }; /* the numbers of the commands */
enum { CLAIM_BYTE = 13 };          /* the byte of the options that has `claim` */
enum { DONE = 0, OUT_OF_MEMORY = 3, MISUSE = 5 };

typedef struct { void *handle; size_t length; } held_text;
typedef struct { uint32_t end, fault; uint64_t line; } ending;

/* the proved functions, and the heap's. The options are two words. */
ending mte_c_call(uint8_t command, uint64_t, uint64_t, const uint8_t *, size_t, held_text *);
uint32_t mte_c_append(const uint8_t *, size_t, held_text *);
size_t mte_c_read(held_text *, size_t from, uint8_t *, size_t);
void mte_c_free(held_text *);
void *web_take(size_t count);
void web_give(void *);

#define EXPORT(name) __attribute__((export_name(name)))

static uint8_t *answered;
static uint32_t length;

static const uint8_t *at(uint32_t place) { return (const uint8_t *)(uintptr_t)place; }

static uint32_t called(uint8_t command, uint64_t claim, uint32_t first, uint32_t first_length, uint32_t input,
                       uint32_t input_length) {
  held_text text = {0, 0};
  ending ended = {OUT_OF_MEMORY, 0, 0};
  uint8_t *before = answered; /* given back only after the call, since it may be one of the texts */
  answered = 0;
  length = 0;
  if (!input_length) ended.end = MISUSE;
  else if (mte_c_append(at(first), first_length, &text) == DONE)
    ended = mte_c_call(command, 0, claim << 8 * (CLAIM_BYTE - 8), at(input), input_length, &text);
  web_give(before);
  if (text.length && !(answered = web_take(text.length))) ended.end = OUT_OF_MEMORY;
  else length = (uint32_t)mte_c_read(&text, 0, answered, text.length);
  mte_c_free(&text);
  return ended.end;
}

EXPORT("take") uint32_t checker_take(uint32_t count) { return (uint32_t)(uintptr_t)web_take(count); }
EXPORT("give") void checker_give(uint32_t place) { web_give((void *)(uintptr_t)place); }

#define CHECK_EXPORT(name, command, claim)                                                                 \
  EXPORT(#name) uint32_t checker_##name(uint32_t first, uint32_t first_length, uint32_t input, uint32_t n) { \
    return called(command, claim, first, first_length, input, n);                                          \
  }

CHECK_EXPORT(check, CHECK, 0)
CHECK_EXPORT(check_claim, CHECK, 1)
CHECK_EXPORT(check_fit, CHECK_FIT, 0)
CHECK_EXPORT(check_fit_claim, CHECK_FIT, 1)

EXPORT("answer") uint32_t checker_answer(void) { return (uint32_t)(uintptr_t)answered; }
EXPORT("answer_length") uint32_t checker_answer_length(void) { return length; }
