/* A table for counts that the program has itself, without any text between: own_counts LIMIT < SIZES
   SIZES is one size in bytes for each request. It prints the classes in bytes and what they waste, after the checker has confirmed that no
   table of at most LIMIT classes wastes less. */
#include <mte_tool.h>
#include <stdio.h>
#include <stdlib.h>

int main(int count, char **words) {
    static uint32_t counted[MTE_TOOL_LARGEST_SIZE + 1], sizes[MTE_TOOL_LARGEST_SIZE + 1], counts[MTE_TOOL_LARGEST_SIZE + 1];
    mte_tool_profile_arrays profile = {sizes, counts, 0};
    mte_tool_options options = MTE_TOOL_OPTIONS(count == 2 ? strtoul(words[1], NULL, 10) : 0);
    mte_tool_result tuned = MTE_TOOL_RESULT;
    uint16_t classes[MTE_TOOL_MOST_CLASSES];
    uint64_t *rows;
    size_t room;
    uint32_t size, i;
    mte_tool_end end;
    while (scanf("%u", &size) == 1)
        if (size <= MTE_TOOL_LARGEST_SIZE) counted[size]++; /* larger ones are not for the classes */
    for (size = 0; size <= MTE_TOOL_LARGEST_SIZE; size++)
        if (counted[size]) {
            sizes[profile.length] = size;
            counts[profile.length++] = counted[size];
        }
    room = MTE_TOOL_MOST_CLASSES * profile.length;
    if (!(rows = malloc((room + 1) * sizeof *rows))) return 3;
    end = mte_tool_tune_profile(&options, &profile, classes, MTE_TOOL_MOST_CLASSES, rows, room, &tuned);
    if (end == MTE_TOOL_DONE)
        end = mte_tool_check_profile(&options, classes, tuned.classes, tuned.bytes, rows, (size_t)options.limit * tuned.places, &profile,
                                     NULL);
    free(rows);
    if (end != MTE_TOOL_DONE) {
        fprintf(stderr, "own_counts: %s\n", mte_tool_end_sentence(end));
        return end == MTE_TOOL_NO ? 1 : 2;
    }
    for (i = 0; i < tuned.classes; i++) printf("%u ", classes[i] * 16u);
    printf("waste %llu\n", (unsigned long long)tuned.bytes);
    return 0;
}
