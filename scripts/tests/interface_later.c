/* A program that knows one option less than the library that it runs with, and one that knows one more. The library's proved functions are
   stood in for: compiled with LIBRARY, this file is these, and each call answers the options that came through. */
#ifdef LIBRARY
#include "interface_stand_ins.h"

#include <stdio.h>

ending mte_c_call(uint8_t command, narrow_options options, const uint8_t *input, size_t length, held_text *text) {
    ending done = {MTE_TOOL_DONE, 0, 0};
    (void)command, (void)input, (void)length;
    text->length = (size_t)sprintf(answer, "limit %d, step %d, colour %d", options.limit, options.step, options.colour);
    return done;
}
#else
#include <mte_tool.h>

#include <stdio.h>
#include <string.h>

#define WANT(condition) \
    if (!(condition)) return fprintf(stderr, "line %d\n", __LINE__), 1

int main(void) {
    mte_tool_options options = MTE_TOOL_OPTIONS(8);
    struct {
        mte_tool_options known;
        uint64_t colour, later;
    } more = {MTE_TOOL_OPTIONS(9), 4, 0};
    mte_tool_text text = MTE_TOOL_TEXT;
    options.step = 2;
    WANT(mte_tool_tune(&options, NULL, 0, &text, NULL) == MTE_TOOL_DONE && !strcmp(text.bytes, "limit 8, step 2, colour 7"));
    WANT(mte_tool_tune(NULL, NULL, 0, &text, NULL) == MTE_TOOL_DONE && !strcmp(text.bytes, "limit 0, step 1, colour 7"));
    more.known.size = sizeof more - sizeof more.later;
    WANT(mte_tool_tune(&more.known, NULL, 0, &text, NULL) == MTE_TOOL_DONE && !strcmp(text.bytes, "limit 9, step 1, colour 4"));
    more.known.size = sizeof more;
    WANT(mte_tool_tune(&more.known, NULL, 0, &text, NULL) == MTE_TOOL_DONE);
    more.later = 1;
    WANT(mte_tool_tune(&more.known, NULL, 0, &text, NULL) == MTE_TOOL_BAD_OPTION && !*text.bytes);
    mte_tool_text_free(&text);
    return 0;
}
#endif
