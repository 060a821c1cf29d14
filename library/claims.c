/* The checks of mte_tool.h that also give what they showed as numbers: those of the line that the proved checker writes
   after `optimal`. Nothing here is proved. */
#include "layer.h"

#include <stddef.h>
#include <string.h>

/* a number of the line: the word before it, and its member */
typedef struct field {
    const char *word;
    size_t member;
} field;

#define FIELD(word, member) {word, offsetof(mte_tool_claim, member)}

enum { LIMITS = 4, MOST_COUNTS = 4 };

/* what a line has by what was counted, in the order of mte_tool_claim_kind; the last words are null where there are
   fewer */
static const struct {
    field limits[LIMITS], counts[MOST_COUNTS];
} forms[] = {
    {{FIELD("claim waste ", cost), FIELD(" limit ", limit), FIELD(" step ", step), FIELD(" forced ", forced)},
     {FIELD(" sizes ", sizes), FIELD(" requests ", requests), FIELD(" bytes ", bytes), FIELD(" large ", large)}},
    {{FIELD("claim footprint ", cost), FIELD(" limit ", limit), FIELD(" step ", step), FIELD(" forced ", forced)},
     {FIELD(" snapshots ", snapshots)}},
    {{FIELD("claim footprint ", cost), FIELD(" limit ", limit), FIELD(" step ", step), FIELD(" forced ", forced)},
     {FIELD(" events ", events)}},
};

/* What comes after a word and a number in its one spelling, which is put into the claim; null where these do not stand
   there. */
static const char *take(const char *at, const field *it, mte_tool_claim *claim) {
    size_t length = strlen(it->word);
    const char *digits = at + length;
    uint64_t number = 0;
    if (strncmp(at, it->word, length)) return NULL;
    for (at = digits; *at >= '0' && *at <= '9'; at++) {
        unsigned digit = (unsigned)(*at - '0');
        if (number > (UINT64_MAX - digit) / 10) return NULL;
        number = 10 * number + digit;
    }
    if (at == digits || (*digits == '0' && at > digits + 1)) return NULL;
    memcpy((char *)claim + it->member, &number, sizeof number);
    return at;
}

/* Reads the line of a claim by one of the forms. */
static int is_read(const char *line, size_t form, mte_tool_claim *claim) {
    const mte_tool_claim none = MTE_TOOL_CLAIM;
    size_t i;
    *claim = none;
    claim->kind = form + 1;
    for (i = 0; line && i < LIMITS; i++) line = take(line, &forms[form].limits[i], claim);
    for (i = 0; line && i < MOST_COUNTS && forms[form].counts[i].word; i++)
        line = take(line, &forms[form].counts[i], claim);
    return line && !strcmp(line, "\n");
}

/* Reads the answer of a check, which is there whole or not at all. */
static int is_claim(const char *text, mte_tool_claim *claim) {
    static const char optimal[] = "optimal\n";
    size_t form, length = sizeof optimal - 1;
    if (strncmp(text, optimal, length)) return 0;
    for (form = 0; form < sizeof forms / sizeof *forms; form++)
        if (is_read(text + length, form, claim)) return 1;
    return 0;
}

static mte_tool_end check(uint8_t command, const mte_tool_options *options, slice first, slice input,
                          mte_tool_text *output, mte_tool_claim *claim, mte_tool_result *result) {
    const mte_tool_claim none = MTE_TOOL_CLAIM;
    mte_tool_claim found = MTE_TOOL_CLAIM;
    mte_tool_end end = MTE_TOOL_MISUSE;
    if (!claim || layer_is_wrong(claim)) return end;
    end = layer_command(command, 1, options, first, input, output, result);
    if (end == MTE_TOOL_DONE && !is_claim(output->bytes, &found)) end = MTE_TOOL_MISUSE; /* no answer of the checker */
    layer_put(claim, end == MTE_TOOL_DONE ? &found : &none, sizeof found);
    return end;
}

mte_tool_end mte_tool_check_claim(const mte_tool_options *options, const void *first, size_t first_length,
                                  const void *input, size_t length, mte_tool_text *output, mte_tool_claim *claim,
                                  mte_tool_result *result) {
    slice sheet = {first, first_length}, profile = {input, length};
    return check(CHECK, options, sheet, profile, output, claim, result);
}

mte_tool_end mte_tool_check_fit_claim(const mte_tool_options *options, const void *first, size_t first_length,
                                      const void *input, size_t length, mte_tool_text *output, mte_tool_claim *claim,
                                      mte_tool_result *result) {
    slice fit = {first, first_length}, counts = {input, length};
    return check(CHECK_FIT, options, fit, counts, output, claim, result);
}
