/* In place of the proved functions: the text of each answer is `answer`, and each test has its own mte_c_call, which says how long it is. */
#include "layer.h"

#include <string.h>

static char answer[200];

uint32_t mte_c_append(const uint8_t *piece, size_t length, held_text *text) {
    (void)piece, (void)length, (void)text;
    return MTE_TOOL_DONE;
}

size_t mte_c_read(held_text *text, size_t from, uint8_t *room, size_t length) {
    memcpy(room, answer + from, length);
    return text->length - from;
}

void mte_c_free(held_text *text) {
    text->length = 0;
}
