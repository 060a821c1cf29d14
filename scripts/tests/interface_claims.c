/* The reader of claims over answers that the proved functions never give: each call ends with MTE_TOOL_DONE and one of
   the texts below. A line that is not of one of the three forms is no claim, and the call no yes. */
#include "interface_stand_ins.h"

#include <stdio.h>

static const char *said;

ending mte_c_call(uint8_t command, narrow_options options, const uint8_t *input, size_t length, held_text *text) {
    ending done = {MTE_TOOL_DONE, 0, options.claim == 1 && (command == CHECK || command == CHECK_FIT) ? 0 : 99};
    (void)input, (void)length;
    text->length = strlen(said);
    memcpy(answer, said, text->length);
    return done;
}

#define LIMITS "limit 32 step 8 forced 1024 "
#define PROFILE "optimal\nclaim waste 9 " LIMITS "sizes 1 requests 2 bytes 3 large 18446744073709551615\n"

static const char *const good[] = {
    PROFILE,
    "optimal\nclaim footprint 9 " LIMITS "snapshots 1024\n",
    "optimal\nclaim footprint 9 " LIMITS "events 0\n",
};

static const char *const spoiled[] = {
    "",
    "optimal\n",
    "optimal",
    "refused 42 WasteWrong\n",
    "optimal\noptimal\nclaim footprint 9 " LIMITS "events 0\n",
    "claim footprint 9 " LIMITS "events 0\n",
    "optimal\nclaim footprint 9 " LIMITS "events 0",
    "optimal\nclaim footprint 9 " LIMITS "events 0\n\n",
    "optimal\nclaim footprint 9 " LIMITS "events 0 \n",
    "optimal\nclaim footprint 9 " LIMITS "events 00\n",
    "optimal\nclaim footprint 9 " LIMITS "events \n",
    "optimal\nclaim footprint 9 " LIMITS "events -1\n",
    "optimal\nclaim footprint 9 " LIMITS "events +1\n",
    "optimal\nclaim footprint 9 " LIMITS "events  1\n",
    "optimal\nclaim footprint 09 " LIMITS "events 1\n",
    "optimal\nclaim footprint 18446744073709551616 " LIMITS "events 1\n",
    "optimal\nclaim footprint 9 " LIMITS "snapshots 1 events 1\n",
    "optimal\nclaim waste 9 " LIMITS "snapshots 1\n",
    "optimal\nclaim waste 9 " LIMITS "sizes 1 requests 2 bytes 3\n",
    "optimal\nclaim footprint 9 " LIMITS "sizes 1 requests 2 bytes 3 large 4\n",
    "optimal\nclaim waste 9 step 8 limit 32 forced 0 sizes 1 requests 2 bytes 3 large 4\n",
    "optimal\nclaim waste 9 limit 32 step 8 sizes 1 requests 2 bytes 3 large 4\n",
};

#define WANT(condition) \
    if (!(condition)) return fprintf(stderr, "line %d: %s\n", __LINE__, said), 1

static int is_none(const mte_tool_claim *claim) {
    const mte_tool_claim none = MTE_TOOL_CLAIM;
    return !memcmp(claim, &none, sizeof none);
}

static mte_tool_end check(mte_tool_claim *claim) {
    mte_tool_text output = MTE_TOOL_TEXT;
    mte_tool_result result = MTE_TOOL_RESULT;
    mte_tool_end end = mte_tool_check_claim(NULL, "x", 1, "y", 1, &output, claim, &result);
    mte_tool_text_free(&output);
    return result.line == 99 ? MTE_TOOL_REFUSED : end;
}

int main(void) {
    mte_tool_claim claim = MTE_TOOL_CLAIM, odd = {sizeof odd - 1, 7, 7, 7, 7, 7, 7, 7, 7, 7, 7, 7};
    struct {
        mte_tool_claim known;
        uint64_t later;
    } later = {MTE_TOOL_CLAIM, 7};
    mte_tool_text output = MTE_TOOL_TEXT;
    size_t i;
    for (i = 0; i < sizeof good / sizeof *good; i++) {
        said = good[i];
        WANT(check(&claim) == MTE_TOOL_DONE && claim.kind == i + 1);
        WANT(claim.cost == 9 && claim.limit == 32 && claim.step == 8 && claim.forced == 1024);
        WANT(claim.sizes == (i == 0) && claim.requests == 2 * claim.sizes && claim.bytes == 3 * claim.sizes);
        WANT(claim.large == (i == 0 ? UINT64_MAX : 0) && claim.snapshots == (i == 1 ? 1024 : 0) && claim.events == 0);
    }
    for (i = 0; i < sizeof spoiled / sizeof *spoiled; i++) {
        said = spoiled[i];
        claim.cost = 7;
        WANT(check(&claim) == MTE_TOOL_MISUSE && is_none(&claim));
    }
    said = PROFILE;
    WANT(check(NULL) == MTE_TOOL_MISUSE && check(&odd) == MTE_TOOL_MISUSE && odd.cost == 7);
    claim.cost = 7;
    WANT(mte_tool_check_claim(NULL, NULL, 1, "y", 1, &output, &claim, NULL) == MTE_TOOL_MISUSE && is_none(&claim));
    later.known.size = sizeof later;
    WANT(check(&later.known) == MTE_TOOL_DONE && later.known.requests == 2 && later.later == 0);
    return 0;
}
