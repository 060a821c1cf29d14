/* Replays a trace on the heap of the library for C, and writes the lines of its events as `mte_tool replay` does, without the totals.

   library_heap TRACE GRANULES SEED QUARANTINE CLASS ..

   With a heap of each kind in 8 threads at once if the first word is `threads`: then it writes nothing, and the status says whether each
   thread got the same answers. */
#include <mte_tool.h>

#include <pthread.h>
#include <stdio.h>
#include <stdlib.h>
#include <string.h>

static const char *trace;
static mte_tool_options options;
static uint16_t classes[32];
static size_t class_count;

static void write_line(FILE *out, long number, mte_tool_end end, const mte_tool_outcome *o, const uint8_t *bytes, size_t length) {
    static const char *const kinds[] = {"slack", "header", "tail", "dead", "other"};
    static const char *const words[] = {"null large", "null no-class", "null exhausted", "refused misplaced", "refused not-live",
                                        "refused wrong-tag"};
    size_t i;
    if (end == MTE_TOOL_DONE && !bytes) return;
    fprintf(out, "%ld ", number);
    if (end == MTE_TOOL_DONE) {
        fprintf(out, "data ");
        for (i = 0; i < length; i++) fprintf(out, "%02x", bytes[i]);
    } else if (o->code == MTE_TOOL_CODE_UNMAPPED) {
        fprintf(out, "fault unmapped");
    } else if (o->code == MTE_TOOL_CODE_TAG_CHECK) {
        fprintf(out, "fault tag granule %u memory %u pointer %u in %s", o->granule, o->memory_tag, o->pointer_tag, kinds[o->granule_kind]);
    } else if (end == MTE_TOOL_NO && o->code >= 60 && o->code <= 65) {
        fprintf(out, "%s", words[o->code - 60]);
    } else {
        fprintf(out, "end %d code %u", end, o->code);
    }
    fprintf(out, "\n");
}

/* sets a variable to the address of an outcome, and to null if there is none */
static void set(uint64_t *variable, mte_tool_end end, const mte_tool_outcome *o, int keeps) {
    if (end == MTE_TOOL_DONE) *variable = o->value;
    else if (!keeps) *variable = 0;
}

static void perform(mte_tool_heap *heap, uint64_t *at, const char *line, long number, FILE *out) {
    char word[16];
    long v, a, b, c;
    unsigned byte;
    uint8_t bytes[64];
    mte_tool_outcome o = MTE_TOOL_OUTCOME;
    mte_tool_end end;
    int is_load = 0;
    sscanf(line, "%15s %ld %ld %ld", word, &v, &a, &b);
    if (!strcmp(word, "malloc")) set(at + v, end = mte_tool_heap_malloc(heap, (size_t)a, &o), &o, 0);
    else if (!strcmp(word, "calloc")) set(at + v, end = mte_tool_heap_calloc(heap, (size_t)a, &o), &o, 0);
    else if (!strcmp(word, "realloc")) set(at + v, end = mte_tool_heap_realloc(heap, at[v], (size_t)a, &o), &o, 1);
    else if (!strcmp(word, "free")) end = mte_tool_heap_free(heap, at[v], &o);
    else if (!strcmp(word, "load")) is_load = 1, end = mte_tool_heap_load(heap, at[v] + (uint64_t)a, bytes, (size_t)b, &o);
    else if (!strcmp(word, "store") && sscanf(line, "%*s %*d %*d %*d %x", &byte) == 1) {
        memset(bytes, (int)byte, sizeof bytes);
        end = mte_tool_heap_store(heap, at[v] + (uint64_t)a, bytes, (size_t)b, &o);
    } else if (!strcmp(word, "addg") && sscanf(line, "%*s %*d %*d %*d %ld", &c) == 1)
        set(at + v, end = mte_tool_heap_addg(heap, at[a], (uint64_t)b, (uint64_t)c, &o), &o, 0);
    else exit(2);
    write_line(out, number, end, &o, is_load ? bytes : NULL, (size_t)b);
}

/* the report's lines, in a block of its own */
static void *replay(void *unused) {
    mte_tool_heap *heap;
    uint64_t *variables = calloc(1024, sizeof *variables);
    char *text = NULL;
    size_t length = 0;
    FILE *out = open_memstream(&text, &length);
    const char *line;
    long number = 0;
    (void)unused;
    if (mte_tool_heap_new(&heap, &options, classes, class_count, NULL) != MTE_TOOL_DONE || !heap) exit(3);
    for (line = trace; *line; line = strchr(line, '\n') + 1) perform(heap, variables, line, ++number, out);
    mte_tool_heap_close(heap);
    fclose(out);
    free(variables);
    return text;
}

int main(int count, char **words) {
    int in_threads = count > 1 && !strcmp(words[1], "threads"), i;
    FILE *file;
    char *whole = calloc(1, 1 << 26);
    pthread_t threads[8];
    words += in_threads;
    count -= in_threads;
    if (count < 5 || !(file = fopen(words[1], "rb"))) return 2;
    if (fread(whole, 1, (1 << 26) - 1, file) == 0 && !feof(file)) return 2;
    fclose(file);
    trace = whole;
    options = (mte_tool_options){sizeof options, (uint64_t)atol(words[2]), (uint64_t)atol(words[4]), (uint64_t)atol(words[3]), 0, 0};
    for (i = 5; i < count; i++) classes[class_count++] = (uint16_t)atol(words[i]);
    if (in_threads) {
        char *first = replay(NULL);
        int same = 1;
        for (i = 0; i < 8; i++) pthread_create(threads + i, NULL, replay, NULL);
        for (i = 0; i < 8; i++) {
            void *text;
            pthread_join(threads[i], &text);
            same = same && !strcmp(first, text);
            free(text);
        }
        free(first);
        free(whole);
        return !same;
    }
    {
        char *text = replay(NULL);
        fputs(text, stdout);
        free(text);
    }
    free(whole);
    return 0;
}
