/* The layer over histories and timelines with an answer that no input of the tests gives: a fit of a timeline that is not shown to be least.
   The proved functions are stood in for: each call ends with MTE_TOOL_NO and the text below. */
#include "interface_stand_ins.h"

#include <stdio.h>

static const char unshown[] = "classes 4 17 1024\nfootprint 18446744073709551615\nnot shown least: no table takes less than 12345678901\n";

ending mte_c_call(uint8_t command, narrow_options options, const uint8_t *input, size_t length, held_text *text) {
    ending no = {MTE_TOOL_NO, 0, 0};
    (void)options, (void)input, (void)length;
    memcpy(answer, unshown, sizeof unshown);
    text->length = command == FIT ? sizeof unshown - 1 : 0;
    return no;
}

#define WANT(condition) \
    if (!(condition)) return fprintf(stderr, "line %d\n", __LINE__), 1

int main(void) {
    static const uint32_t sizes[] = {16};
    static const uint8_t frees[] = {0};
    const mte_tool_timeline_arrays timeline = {sizes, frees, 1};
    mte_tool_options options = MTE_TOOL_OPTIONS(4);
    mte_tool_result result = MTE_TOOL_RESULT;
    uint16_t classes[4] = {7, 7, 7, 7};
    uint64_t rows[4] = {7, 7, 7, 7};
    uint32_t moments[2] = {7, 7};
    WANT(mte_tool_fit_timeline(&options, &timeline, classes, 4, rows, 4, moments, 2, &result) == MTE_TOOL_NO);
    WANT(result.classes == 3 && classes[0] == 4 && classes[1] == 17 && classes[2] == 1024 && classes[3] == 7);
    WANT(result.bytes == UINT64_MAX && result.bound == 12345678901 && result.places == 0 && result.moments == 0);
    WANT(rows[0] == 7 && moments[0] == 7 && result.code == 0 && result.at == 0 && result.line == 0);
    return 0;
}
