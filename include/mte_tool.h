/* The engines of mte_tool for C99, C++ and whatever else calls C. docs/LIBRARY.md has examples, says what is proved, and what of this
   interface stays. include/mte_tool.hpp, python/mte_tool and rust/mte-tool are the same for C++, Python and Rust.

   - A call returns how it ended, an mte_tool_end. Why an input, a sheet or a request is refused is a code, an mte_tool_code. The two are
     apart, and each has its own sentences.
   - What a call only reads is const. What it gives goes into an output of its own, of which a structure that begins with its `size` may be
     null.
   - There is no state beside the arguments but the functions for memory, which are set before the first call. Calls in many threads are
     independent, as long as no two write to one text or use one heap at a time. */
#ifndef MTE_TOOL_H
#define MTE_TOOL_H

#include <stddef.h>
#include <stdint.h>

#ifdef __cplusplus
extern "C" {
#endif

/* before a call whose end has to be looked at: a compiler warns where it is dropped */
#if (defined __cplusplus && __cplusplus >= 201703L) || (defined __STDC_VERSION__ && __STDC_VERSION__ >= 202311L)
#define MTE_TOOL_CHECKED [[nodiscard]]
#elif defined __GNUC__
#define MTE_TOOL_CHECKED __attribute__((warn_unused_result))
#else
#define MTE_TOOL_CHECKED
#endif

/* The version of this header; the first of its three numbers is that of the interface. The number is 10000, 100 and 1 times the three. */
#define MTE_TOOL_VERSION "1.0.0"
#define MTE_TOOL_VERSION_NUMBER 10000

/* the limits of docs/FORMATS.md */
#define MTE_TOOL_MOST_INPUT 67108864   /* the bytes of an input */
#define MTE_TOOL_MOST_CLASSES 32       /* the classes of a table */
#define MTE_TOOL_LARGEST_CLASS 1024    /* in granules of 16 bytes */
#define MTE_TOOL_LARGEST_SIZE 16368    /* in bytes: the largest request that a class serves */
#define MTE_TOOL_MOST_COUNT 1000000000 /* how often a profile may count a size */

/* How a call ended. No later version has more of them. */
typedef enum mte_tool_end {
    MTE_TOOL_DONE = 0,          /* done; the output is the answer */
    MTE_TOOL_NO = 1,            /* the verdict is no; the output is the answer */
    MTE_TOOL_REFUSED = 2,       /* the input is refused; the output is its first fault, as "30 BadLine line 2", without a newline */
    MTE_TOOL_OUT_OF_MEMORY = 3, /* memory ran out; the output is empty */
    MTE_TOOL_BAD_OPTION = 4,    /* an option is out of its range, or not known to this library; the output is empty */
    MTE_TOOL_MISUSE = 5         /* the call is not as it has to be; a pointer is null that must not be, a structure has no size, or as the
                                   call says */
} mte_tool_end;

/* Why an input is refused, why the verdict is no, or why the heap or the machine refuses a call: the codes of docs/FORMATS.md. A structure
   has such a code as a number of 32 bits, since a later library may give a code that this header does not name. */
typedef enum mte_tool_code {
    MTE_TOOL_CODE_NONE = 0,                   /* there is none */
    MTE_TOOL_CODE_TOO_MANY_CLASSES = 20,      /* there are more than 32 classes */
    MTE_TOOL_CODE_CLASS_OUT_OF_RANGE = 21,    /* a class is not from 2 to 1024 */
    MTE_TOOL_CODE_CLASSES_NOT_ASCENDING = 22, /* a class is not above the one before it */
    MTE_TOOL_CODE_BAD_CLASS_LINE = 23,        /* the class line is not `classes` and then numbers */
    MTE_TOOL_CODE_BAD_COUNT_LINE = 30,        /* a line is not a size up to 16368, or `large`, and then counts */
    MTE_TOOL_CODE_SIZES_NOT_ASCENDING = 31,   /* a size is not above the one before it */
    MTE_TOOL_CODE_COUNT_OUT_OF_RANGE = 32,    /* a count is above 1000000000, or all of a line are 0 */
    MTE_TOOL_CODE_COUNT_FULL = 33,            /* the count is 1000000000, and no request more is counted */
    MTE_TOOL_CODE_BAD_SNAPSHOTS = 34,         /* the history's first line is not `snapshots T`, T from 1 to 1024 */
    MTE_TOOL_CODE_WRONG_LENGTH = 35,          /* a line does not have T numbers, one for each snapshot */
    MTE_TOOL_CODE_BAD_FIT = 36,               /* a line is not of a fit's form, or is missing */
    MTE_TOOL_CODE_BAD_TIMELINE = 37,          /* a line of the timeline is none of its four forms */
    MTE_TOOL_CODE_SIZE_NOT_LIVE = 38,         /* a free of a size of which no block is live */
    MTE_TOOL_CODE_OFF_STEP = 39,              /* this is not so: each class is a multiple of the step */
    MTE_TOOL_CODE_OVER_LIMIT = 40,            /* this is not so: the table has at most K classes */
    MTE_TOOL_CODE_NOT_SERVING = 41,           /* this is not so: each counted size has a class */
    MTE_TOOL_CODE_WASTE_WRONG = 42,           /* this is not so: the waste is the table's on the profile */
    MTE_TOOL_CODE_SHAPE = 43,                 /* this is not so: there are K rows, with a number for each distinct need */
    MTE_TOOL_CODE_LAST_CLASS = 44,            /* a number of the first row is above the cost of one class on all that comes after its
                                                 place */
    MTE_TOOL_CODE_STAGE_DROP = 45,            /* a number is above the one at its place in the row before */
    MTE_TOOL_CODE_EDGE = 46,                  /* a number is above the cost of one class up to a later place, and the number there in the
                                                 row before */
    MTE_TOOL_CODE_NOT_TIGHT = 47,             /* the first number of the last row is not the cost of the table */
    MTE_TOOL_CODE_BAD_SHEET = 48,             /* a line is not of a sheet's form, or is missing */
    MTE_TOOL_CODE_FOOTPRINT_WRONG = 49,       /* this is not so: the footprint is the table's over the history */
    MTE_TOOL_CODE_UNMAPPED = 50,              /* of a load or a store: a byte is not in the region, or one of the bits 60 to 63 of the
                                                 address is 1 */
    MTE_TOOL_CODE_ALIGNMENT = 51,             /* an address is not aligned */
    MTE_TOOL_CODE_TAG_CHECK = 52,             /* of a load or a store: a granule's tag differs from the address's */
    MTE_TOOL_CODE_NOT_MOMENTS = 53,           /* this is not so: no number of `moments` is above the number of events */
    MTE_TOOL_CODE_LARGE = 60,                 /* of malloc, calloc and realloc: more than 16368 bytes are requested */
    MTE_TOOL_CODE_NO_CLASS = 61,              /* of malloc, calloc and realloc: no class of the table serves the request */
    MTE_TOOL_CODE_EXHAUSTED = 62,             /* of malloc, calloc and realloc: no slot of the request's class is left */
    MTE_TOOL_CODE_MISPLACED = 63,             /* of free and realloc: no chunk of a slot begins at the address */
    MTE_TOOL_CODE_CHUNK_NOT_LIVE = 64,        /* of free and realloc: the chunk there is not live */
    MTE_TOOL_CODE_WRONG_TAG = 65,             /* of free and realloc: the address has another tag than the chunk */
    MTE_TOOL_CODE_BAD_WORD = 70,              /* a line is no event, or has a word too many or too few */
    MTE_TOOL_CODE_BAD_NUMBER = 71,            /* a word is no number of its kind, or not in its one spelling */
    MTE_TOOL_CODE_NUMBER_OUT_OF_RANGE = 72,   /* a number is not in its range */
    MTE_TOOL_CODE_LINE_TOO_LONG = 73,         /* a line has more than 80 bytes */
    MTE_TOOL_CODE_TOO_MANY_EVENTS = 74,       /* there is a line after 1000000 events */
    MTE_TOOL_CODE_INPUT_TOO_LONG = 80,        /* there are more than 67108864 bytes */
    MTE_TOOL_CODE_READ_FAULT = 81,            /* a read failed */
    MTE_TOOL_CODE_WRITE_FAULT = 82,           /* a write failed, or took no byte */
    MTE_TOOL_CODE_BAD_OPTION = 83             /* the step is 3, 5, 6 or 7; nothing is read then */
} mte_tool_code;

/* The options. A caller sets `size` to the size of the structure that it knows, as MTE_TOOL_OPTIONS does, so that later versions can add
   members at the end. A member that the caller's structure lacks has its default. One that the library does not know yet has to be 0, which
   is its default, or the call ends with MTE_TOOL_BAD_OPTION. Null stands for a structure without any member. Each option has 64 bits, so
   that a number out of its range stays one: it is MTE_TOOL_BAD_OPTION.

   Each call reads its own options, and the others may have any value: tune and fit read limit, step and largest_class; replay and
   mte_tool_heap_new read granules, quarantine and seed; run reads limit, step, granules, quarantine and seed. */
typedef struct mte_tool_options {
    size_t size;            /* sizeof (mte_tool_options) */
    uint64_t granules;      /* the granules of the heap, 64 to 262144 */
    uint64_t quarantine;    /* the bytes of freed blocks that the heap holds back, 0 to 4194304 */
    uint64_t seed;          /* the seed of the random tags, 1 to 65535 */
    uint64_t limit;         /* the most classes of the table, 1 to 32; it has no default */
    uint64_t step;          /* the granules that each class is a multiple of: 1, 2, 4 or 8 */
    uint64_t largest_class; /* whether the table must have class 1024: 0 or 1 */
} mte_tool_options;

/* The program's own defaults, with this limit; for a call that reads no limit, any number. In C++ a `limit` that is no constant
   has to be unsigned. */
#define MTE_TOOL_OPTIONS(limit) {sizeof(mte_tool_options), 65536, 65536, 1, (limit), 1, 0}

/* What a call found, beside how it ended. A caller sets `size`, as MTE_TOOL_RESULT does; a member that this library does not know is set to
   0, as is each that the call does not give. */
typedef struct mte_tool_result {
    size_t size;      /* sizeof (mte_tool_result) */
    uint32_t code;    /* why the input is refused, or the verdict is no: an mte_tool_code; 0 without one */
    uint32_t classes; /* of a call over arrays: how many classes the table has that it gave */
    uint64_t line;    /* the line of a text's fault, from 1 on */
    uint64_t at;      /* of arrays the index of the first faulty entry, from 0 on; or the least size without a class, in bytes */
    uint64_t bytes;   /* what the table wastes on a profile, or takes of memory over a history or a timeline */
    uint64_t bound;   /* where a fit of a timeline is not shown to be least: no table takes less than these bytes */
    uint32_t places;  /* of a call over arrays: how many numbers each row of the certificate has, 0 to 1023: at most one
                         for each size, and one more with largest_class */
    uint32_t moments; /* of a fit of a timeline over arrays: how many moments its certificate names */
} mte_tool_result;

#define MTE_TOOL_RESULT {sizeof(mte_tool_result), 0, 0, 0, 0, 0, 0, 0, 0}

/* A text. It begins as MTE_TOOL_TEXT, the empty text, and mte_tool_text_free makes it that again. The bytes may be read and changed, and a
   byte 0 comes after them: the empty text is "", and so is an empty answer. A structure of zeros is the empty text too. A copy of the
   structure is the same text: free one of them. */
typedef struct mte_tool_text {
    char *bytes;   /* null only in a structure of zeros, until a call fills it */
    size_t length; /* of the bytes, without that 0 */
    size_t room;   /* the library's own: 0 if it has no memory to free */
} mte_tool_text;

#ifdef __cplusplus
#define MTE_TOOL_TEXT {const_cast<char *>(""), 0, 0}
#else
#define MTE_TOOL_TEXT {(char *)"", 0, 0}
#endif

/* MTE_TOOL_VERSION and MTE_TOOL_VERSION_NUMBER of the library that runs, which may be a later one than the header's. */
const char *mte_tool_version(void);
uint32_t mte_tool_version_number(void);

/* A sentence without an end for how a call ended, and one for the code of a result or an outcome. The name of a code is the word after its
   number in the text of a refusal, as BadLine, and "" of a number that is no code. They are never null, and are not freed. */
const char *mte_tool_end_sentence(mte_tool_end end);
const char *mte_tool_code_sentence(uint32_t code);
const char *mte_tool_code_name(uint32_t code);

/* ---- memory */

/* Where the library takes its memory: functions that do what malloc, realloc and free do, with blocks for any type, and that may be called
   in many threads at once. `take` and `resize` return null if there is none, and then the call ends with MTE_TOOL_OUT_OF_MEMORY. All of the
   library's memory comes from them: that of texts and heaps, and what a call takes for itself. */
typedef struct mte_tool_allocator {
    size_t size; /* sizeof (mte_tool_allocator) */
    void *(*take)(void *context, size_t bytes);
    void *(*resize)(void *context, void *block, size_t bytes);
    void (*give)(void *context, void *block);
    void *context; /* what the functions get first */
} mte_tool_allocator;

/* Has the whole process take the library's memory from these functions, or again from malloc, realloc and free where `allocator` is null.
   The structure is copied. It is called before all other calls, and in no second thread meanwhile: once the library has taken memory it
   changes nothing and ends with MTE_TOOL_MISUSE, as it does where a function is null. A member that the library does not know yet has to
   be 0, or the call ends with MTE_TOOL_BAD_OPTION. */
MTE_TOOL_CHECKED mte_tool_end mte_tool_set_allocator(const mte_tool_allocator *allocator);

/* ---- the commands over texts */

/* Each call is the program's command of that name: the input is what that reads from standard input, at most MTE_TOOL_MOST_INPUT bytes in
   the formats of docs/FORMATS.md, and the output what it writes. Where the program reads two texts, one after the other, a call takes them
   apart: `first` is a class line, a sheet or a fit, and nothing else, and `input` what comes after it. Their last lines may lack the
   newline, the first one's fault comes first, and result->line is a line of the text that the code is of. `input` may be null if `length`
   is 0, and `first` likewise.

   What `output` held before is freed, and the answer takes its place, for the caller to free. For MTE_TOOL_REFUSED that is the first fault
   of the input, as "30 BadLine line 2", without a newline; result->code and result->line have its numbers. For MTE_TOOL_OUT_OF_MEMORY and
   MTE_TOOL_BAD_OPTION the output is empty. MTE_TOOL_MISUSE leaves it as it was. A text may be the output's own bytes. Of an input that is
   too long only the length is looked at. */
MTE_TOOL_CHECKED mte_tool_end mte_tool_score(const mte_tool_options *options, const void *first, size_t first_length, const void *input,
                                             size_t length, mte_tool_text *output, mte_tool_result *result);
MTE_TOOL_CHECKED mte_tool_end mte_tool_tune(const mte_tool_options *options, const void *input, size_t length, mte_tool_text *output,
                                            mte_tool_result *result);
MTE_TOOL_CHECKED mte_tool_end mte_tool_check(const mte_tool_options *options, const void *first, size_t first_length, const void *input,
                                             size_t length, mte_tool_text *output, mte_tool_result *result);
MTE_TOOL_CHECKED mte_tool_end mte_tool_footprint(const mte_tool_options *options, const void *first, size_t first_length, const void *input,
                                                 size_t length, mte_tool_text *output, mte_tool_result *result);
MTE_TOOL_CHECKED mte_tool_end mte_tool_fit(const mte_tool_options *options, const void *input, size_t length, mte_tool_text *output,
                                           mte_tool_result *result);
MTE_TOOL_CHECKED mte_tool_end mte_tool_check_fit(const mte_tool_options *options, const void *first, size_t first_length, const void *input,
                                                 size_t length, mte_tool_text *output, mte_tool_result *result);
MTE_TOOL_CHECKED mte_tool_end mte_tool_profile(const mte_tool_options *options, const void *input, size_t length, mte_tool_text *output,
                                               mte_tool_result *result);
MTE_TOOL_CHECKED mte_tool_end mte_tool_replay(const mte_tool_options *options, const void *first, size_t first_length, const void *input,
                                              size_t length, mte_tool_text *output, mte_tool_result *result);
MTE_TOOL_CHECKED mte_tool_end mte_tool_run(const mte_tool_options *options, const void *input, size_t length, mte_tool_text *output,
                                           mte_tool_result *result);
MTE_TOOL_CHECKED mte_tool_end mte_tool_peaks(const mte_tool_options *options, const void *first, size_t first_length, const void *input,
                                             size_t length, mte_tool_text *output, mte_tool_result *result);

/* Appends a piece to a text, such as an input that comes in pieces. Returns MTE_TOOL_DONE; or MTE_TOOL_OUT_OF_MEMORY or MTE_TOOL_MISUSE,
   which leave the text as it was. `piece` may be null if `length` is 0, and is no part of the text. */
MTE_TOOL_CHECKED mte_tool_end mte_tool_text_append(mte_tool_text *text, const void *piece, size_t length);

/* Appends an event to a timeline, so that no array of all events is needed: the request of a block of `size` bytes, or
   its free where `is_free` is not 0. The empty text becomes a timeline of this event. The text is an input of
   mte_tool_footprint, mte_tool_fit, mte_tool_check_fit and mte_tool_peaks. The ends are those of mte_tool_text_append. */
MTE_TOOL_CHECKED mte_tool_end mte_tool_timeline_append(mte_tool_text *timeline, size_t size, int is_free);

/* Frees the memory of a text, and leaves the empty text. Null is let pass. */
void mte_tool_text_free(mte_tool_text *text);

/* ---- what a check showed, as numbers */

/* What was counted for a claim. A later library may know more kinds. */
typedef enum mte_tool_claim_kind {
    MTE_TOOL_CLAIM_NONE = 0,    /* there is no claim */
    MTE_TOOL_CLAIM_PROFILE = 1, /* a profile */
    MTE_TOOL_CLAIM_HISTORY = 2, /* a history */
    MTE_TOOL_CLAIM_TIMELINE = 3 /* a timeline */
} mte_tool_claim_kind;

/* What a check showed: of the tables of at most `limit` classes, all multiples of `step` granules, that serve all that was
   counted, and that have class `forced` where it is not 0, none costs less than `cost`. That is what the table of the
   sheet or the fit costs. A caller sets `size`, as MTE_TOOL_CLAIM does; a member that this library does not know is set to
   0, as is each that the kind does not have. */
typedef struct mte_tool_claim {
    size_t size;        /* sizeof (mte_tool_claim) */
    uint64_t kind;      /* what was counted: an mte_tool_claim_kind */
    uint64_t cost;      /* in bytes: the waste on a profile, the footprint over a history or a timeline */
    uint64_t limit;     /* the most classes */
    uint64_t step;      /* the granules that each class is a multiple of */
    uint64_t forced;    /* the class that each table has to have, or 0 */
    uint64_t sizes;     /* of a profile: how many sizes it has */
    uint64_t requests;  /* of a profile: how often these were requested */
    uint64_t bytes;     /* of a profile: the bytes of these requests */
    uint64_t large;     /* of a profile: the requests above MTE_TOOL_LARGEST_SIZE, which are in none of the other numbers */
    uint64_t snapshots; /* of a history: how many it has */
    uint64_t events;    /* of a timeline: how many it has */
} mte_tool_claim;

#define MTE_TOOL_CLAIM {sizeof(mte_tool_claim), 0, 0, 0, 0, 0, 0, 0, 0, 0, 0, 0}

/* mte_tool_check and mte_tool_check_fit, which also put what they showed into `claim`, as numbers, and say it in the output,
   in a second line, as the program's `check --claim` does. After any end but MTE_TOOL_DONE the claim is of the kind
   MTE_TOOL_CLAIM_NONE, and all its numbers are 0. */
MTE_TOOL_CHECKED mte_tool_end mte_tool_check_claim(const mte_tool_options *options, const void *first, size_t first_length,
                                                   const void *input, size_t length, mte_tool_text *output,
                                                   mte_tool_claim *claim, mte_tool_result *result);
MTE_TOOL_CHECKED mte_tool_end mte_tool_check_fit_claim(const mte_tool_options *options, const void *first,
                                                       size_t first_length, const void *input, size_t length,
                                                       mte_tool_text *output, mte_tool_claim *claim,
                                                       mte_tool_result *result);

/* ---- the same over arrays, for a caller that counts itself */

/* A profile: `length` sizes in bytes, ascending, from 0 to MTE_TOOL_LARGEST_SIZE, each requested as often as its count says, 1 to
   MTE_TOOL_MOST_COUNT times. Arrays of no number may be null, here and below. */
typedef struct mte_tool_profile_arrays {
    const uint32_t *sizes;
    const uint32_t *counts;
    size_t length;
} mte_tool_profile_arrays;

/* A history: `length` such sizes, and for each of them `snapshots` counts of its blocks that were live, size after size; 1 to 1024
   snapshots, and counts from 0 to MTE_TOOL_MOST_COUNT, of a size not all 0. */
typedef struct mte_tool_history_arrays {
    const uint32_t *sizes;
    const uint32_t *counts;
    size_t length;
    size_t snapshots;
} mte_tool_history_arrays;

/* A timeline: `length` events, each the request of a block of so many bytes, or its free where `frees` is not 0. Blocks of more than
   MTE_TOOL_LARGEST_SIZE bytes count for nothing. */
typedef struct mte_tool_timeline_arrays {
    const uint32_t *sizes;
    const uint8_t *frees;
    size_t length;
} mte_tool_timeline_arrays;

/* Of all of them: the classes are in granules of 16 bytes, ascending, from 2 to 1024. MTE_TOOL_REFUSED has in result->code 20 (too many
   classes), 21 (one is out of its range) or 22 (not ascending); or of an entry, with its index in result->at, 30 (the size is too large),
   31 (not ascending), 32 (a count is out of its range) or 38 (nothing of that size is live); or 34 (the number of snapshots), 36 (no fit
   has such rows or moments) or 80 (as a text the input would be longer than MTE_TOOL_MOST_INPUT bytes). A length above PTRDIFF_MAX / 8 is
   that of no array: MTE_TOOL_MISUSE. The arrays of one call may not overlap. */

/* What a table costs: result->bytes. MTE_TOOL_NO: a size has no class, and result->at is the least one. */
MTE_TOOL_CHECKED mte_tool_end mte_tool_score_profile(const mte_tool_options *options, const uint16_t *classes, size_t class_count,
                                                     const mte_tool_profile_arrays *profile, mte_tool_result *result);
MTE_TOOL_CHECKED mte_tool_end mte_tool_footprint_history(const mte_tool_options *options, const uint16_t *classes, size_t class_count,
                                                         const mte_tool_history_arrays *history, mte_tool_result *result);
MTE_TOOL_CHECKED mte_tool_end mte_tool_footprint_timeline(const mte_tool_options *options, const uint16_t *classes, size_t class_count,
                                                          const mte_tool_timeline_arrays *timeline, mte_tool_result *result);

/* The table of least cost, of at most `limit` classes that are multiples of `step`. `classes` has room for `class_room` of them, `limit` or
   more, or that is MTE_TOOL_MISUSE; result->classes says how many there are. Its certificate is `limit` rows of result->places numbers
   each, put row after row into `rows` if `row_room` is at least limit * places; else `rows` stays as it is. limit * length is always
   enough without largest_class, and limit * (length + 1) with it; 0 and null let the certificate go. That of a
   timeline also names moments, at most 1024, which are put into `moments` likewise. After any end but MTE_TOOL_DONE the
   arrays are as they were, but for one: MTE_TOOL_NO of a timeline gives the best classes that were found, no
   certificate, and result->bound. */
MTE_TOOL_CHECKED mte_tool_end mte_tool_tune_profile(const mte_tool_options *options, const mte_tool_profile_arrays *profile,
                                                    uint16_t *classes, size_t class_room, uint64_t *rows, size_t row_room,
                                                    mte_tool_result *result);
MTE_TOOL_CHECKED mte_tool_end mte_tool_fit_history(const mte_tool_options *options, const mte_tool_history_arrays *history,
                                                   uint16_t *classes, size_t class_room, uint64_t *rows, size_t row_room,
                                                   mte_tool_result *result);
MTE_TOOL_CHECKED mte_tool_end mte_tool_fit_timeline(const mte_tool_options *options, const mte_tool_timeline_arrays *timeline,
                                                    uint16_t *classes, size_t class_room, uint64_t *rows, size_t row_room,
                                                    uint32_t *moments, size_t moment_room, mte_tool_result *result);

/* The verdict on a table with its certificate, whoever made it: `class_count` classes, made for these options, with the cost in bytes that
   it claims and the `row_count` numbers of its rows. MTE_TOOL_DONE: no table within these options (limit,
   step, largest_class) costs less. MTE_TOOL_NO: it is refused,
   and result->code says by which condition. MTE_TOOL_MISUSE: the numbers can't be cut in `limit` rows of one length. */
MTE_TOOL_CHECKED mte_tool_end mte_tool_check_profile(const mte_tool_options *options, const uint16_t *classes, size_t class_count,
                                                     uint64_t waste, const uint64_t *rows, size_t row_count,
                                                     const mte_tool_profile_arrays *profile, mte_tool_result *result);
MTE_TOOL_CHECKED mte_tool_end mte_tool_check_fit_history(const mte_tool_options *options, const uint16_t *classes, size_t class_count,
                                                         uint64_t footprint, const uint64_t *rows, size_t row_count,
                                                         const mte_tool_history_arrays *history, mte_tool_result *result);
MTE_TOOL_CHECKED mte_tool_end mte_tool_check_fit_timeline(const mte_tool_options *options, const uint16_t *classes, size_t class_count,
                                                          uint64_t footprint, const uint64_t *rows, size_t row_count,
                                                          const uint32_t *moments, size_t moment_count,
                                                          const mte_tool_timeline_arrays *timeline, mte_tool_result *result);

/* The number of the class that serves a request of `size` bytes: its place in the table, from 0 on; -1 if none serves it. The table is
   ascending, and so this is the least class that is large enough: a class of c granules has 16 * (c - 1) bytes for a request. */
int mte_tool_class_of(const uint16_t *classes, size_t class_count, size_t size);

/* ---- the heap itself, for whoever tests an allocator against the model (docs/HEAP.md) */

/* A heap that the library holds for its caller, who has nothing but the pointer. No call may have the pointer of a heap that is closed. */
typedef struct mte_tool_heap mte_tool_heap;

/* The address of the first byte of each heap's region, without a tag. */
#define MTE_TOOL_REGION_START (UINT64_C(1) << 36)

/* What a granule is (docs/HEAP.md). A later library may know more kinds. */
typedef enum mte_tool_granule_kind {
    MTE_TOOL_GRANULE_SLACK = 0,  /* of no slot */
    MTE_TOOL_GRANULE_HEADER = 1, /* the header of a slot */
    MTE_TOOL_GRANULE_TAIL = 2,   /* after the bytes of a chunk */
    MTE_TOOL_GRANULE_DEAD = 3,   /* of a freed chunk */
    MTE_TOOL_GRANULE_LIVE = 4    /* of a live chunk */
} mte_tool_granule_kind;

/* What a call on a heap gave, beside how it ended. A caller sets `size`, as MTE_TOOL_OUTCOME does. What the call does not give is 0. */
typedef struct mte_tool_outcome {
    size_t size;           /* sizeof (mte_tool_outcome) */
    uint64_t value;        /* of malloc, calloc, realloc and addg: the address, with its tag in bits 56 to 59; of granule a slot's number */
    uint32_t code;         /* an mte_tool_code: 50 and 52 of an access, 60 to 65 of a request or a free; of mte_tool_heap_new 20 to 22 */
    uint32_t granule;      /* of a tag fault: the lowest granule whose tag differs, from the region's start */
    uint32_t memory_tag;   /* its tag */
    uint32_t pointer_tag;  /* the address's tag */
    uint32_t granule_kind; /* what that granule is: an mte_tool_granule_kind */
    uint32_t reserved;     /* 0 */
} mte_tool_outcome;

#define MTE_TOOL_OUTCOME {sizeof(mte_tool_outcome), 0, 0, 0, 0, 0, 0, 0}

/* Makes a heap over the table of `class_count` classes, in granules, ascending, from 2 to 1024, and puts the pointer to it into `heap`.
   Whatever that held is not looked at. The ends: MTE_TOOL_BAD_OPTION, MTE_TOOL_REFUSED (the classes), MTE_TOOL_OUT_OF_MEMORY and
   MTE_TOOL_MISUSE, after which it is null. It takes 17 bytes for each granule. No other call takes memory. */
MTE_TOOL_CHECKED mte_tool_end mte_tool_heap_new(mte_tool_heap **heap, const mte_tool_options *options, const uint16_t *classes,
                                                size_t class_count, mte_tool_outcome *outcome);

/* The calls of the heap, and the loads and stores of its machine. MTE_TOOL_NO: the heap or the machine refused it, outcome->code says why,
   and nothing changed. Where `heap` is null they end with MTE_TOOL_MISUSE. The address of null is 0: `realloc` of it is
   `malloc`, and `free` of it does nothing. */
MTE_TOOL_CHECKED mte_tool_end mte_tool_heap_malloc(mte_tool_heap *heap, size_t size, mte_tool_outcome *outcome);
MTE_TOOL_CHECKED mte_tool_end mte_tool_heap_calloc(mte_tool_heap *heap, size_t size, mte_tool_outcome *outcome);
MTE_TOOL_CHECKED mte_tool_end mte_tool_heap_realloc(mte_tool_heap *heap, uint64_t address, size_t size, mte_tool_outcome *outcome);
MTE_TOOL_CHECKED mte_tool_end mte_tool_heap_free(mte_tool_heap *heap, uint64_t address, mte_tool_outcome *outcome);

/* Read and write 1 to 64 bytes from an address on; another length is MTE_TOOL_BAD_OPTION. The address of a further byte of a chunk is the
   chunk's and a number of bytes, with the same tag. No chunk has tag 0, so an address with it that lies in the region is MTE_TOOL_MISUSE.
   After any end but MTE_TOOL_DONE the room and the region are as they were. A room that shares a byte with the outcome is
   MTE_TOOL_MISUSE. */
MTE_TOOL_CHECKED mte_tool_end mte_tool_heap_load(mte_tool_heap *heap, uint64_t address, void *room, size_t length,
                                                 mte_tool_outcome *outcome);
MTE_TOOL_CHECKED mte_tool_end mte_tool_heap_store(mte_tool_heap *heap, uint64_t address, const void *bytes, size_t length,
                                                  mte_tool_outcome *outcome);

/* What a granule is, by its number from the region's start on: outcome->granule_kind and outcome->memory_tag. If it is of a slot,
   outcome->value is the slot's number, from 0 on in the order of addresses, and outcome->granule the slot's first granule; else both are 0.
   The granule at the address MTE_TOOL_REGION_START has the number 0. A number past the region is MTE_TOOL_BAD_OPTION. */
MTE_TOOL_CHECKED mte_tool_end mte_tool_heap_granule(mte_tool_heap *heap, uint64_t granule, mte_tool_outcome *outcome);

/* ADDG: the address `granules` granules (0 to 63) further up, with the tag that `step` (0 to 15) counts up from its own. A number out of
   its range is MTE_TOOL_BAD_OPTION. */
MTE_TOOL_CHECKED mte_tool_end mte_tool_heap_addg(mte_tool_heap *heap, uint64_t address, uint64_t granules, uint64_t step,
                                                 mte_tool_outcome *outcome);

/* Frees the heap. Null is let pass. */
void mte_tool_heap_close(mte_tool_heap *heap);

#ifdef __cplusplus
}
#endif

#endif
