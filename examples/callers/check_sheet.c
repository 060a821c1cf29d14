/* check_sheet SHEET PROFILE: a step of a build that fails unless the sheet shows that its table is a best one for the profile.
   cc -IDIR/include check_sheet.c DIR/lib/libmte_tool.a -o check_sheet, where DIR is that of scripts/library */
#include <mte_tool.h>

#include <errno.h>
#include <stdio.h>

/* Appends a file to a text. An empty one is no sheet, and no profile either: for what counts nothing each table is a best
   one. */
static int append_file(mte_tool_text *text, const char *path) {
    char piece[4096];
    size_t n;
    int good;
    FILE *file = fopen(path, "rb");
    if (!file) return 0;
    while ((n = fread(piece, 1, sizeof piece, file)) > 0 && mte_tool_text_append(text, piece, n) == MTE_TOOL_DONE) {}
    good = n == 0 && !ferror(file);
    fclose(file);
    if (good && text->length == 0) errno = ENODATA;
    return good && text->length > 0;
}

int main(int argc, char **argv) {
    mte_tool_text sheet = MTE_TOOL_TEXT, profile = MTE_TOOL_TEXT, verdict = MTE_TOOL_TEXT;
    mte_tool_result result = MTE_TOOL_RESULT;
    mte_tool_end end = MTE_TOOL_REFUSED;
    if (argc != 3) {
        fprintf(stderr, "usage: check_sheet SHEET PROFILE\n");
        return 2;
    }
    if (append_file(&sheet, argv[1]) && append_file(&profile, argv[2])) {
        end = mte_tool_check(NULL, sheet.bytes, sheet.length, profile.bytes, profile.length, &verdict, &result);
        if (end == MTE_TOOL_DONE) fputs(verdict.bytes, stdout);
        else fprintf(stderr, "%s: %s\n", mte_tool_end_sentence(end), mte_tool_code_sentence(result.code));
        if (result.line) fprintf(stderr, "line %llu of %s\n", (unsigned long long)result.line, argv[result.code == MTE_TOOL_CODE_BAD_SHEET ? 1 : 2]);
    } else {
        perror(argv[0]);
    }
    mte_tool_text_free(&sheet);
    mte_tool_text_free(&profile);
    mte_tool_text_free(&verdict);
    return (int)end;
}
