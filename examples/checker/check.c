/* Checks a certificate by the module docs/checker.wasm where no engine of WebAssembly is, on any processor: wasm2c of
   Debian's package wabt makes C of it.

     sed -n 's/^program \(.*\)/\1  docs\/checker.wasm/p' docs/checker.wasm.manifest | sha256sum -c
     wasm2c docs/checker.wasm -o checker.c
     cc -O1 -I. -I/usr/share/wabt/wasm2c examples/checker/check.c checker.c \
        /usr/share/wabt/wasm2c/wasm-rt-impl.c -lm -o check
     ./check check SHEET PROFILE        ./check check-fit FIT TIMELINE

   With --claim after the command a second line says what was shown, and of what.
   The exit status: 0 'optimal'; 1 the verdict is no; 2 the words or a text are refused, an empty PROFILE or TIMELINE
   too; 3 a file can't be read, the answer can't be written, or memory ran out. */
#include "checker.h"

#include <errno.h>
#include <stdio.h>
#include <string.h>

enum { DONE = 0, REFUSED = 2, FAILED = 3, MISUSE = 5 }; /* MISUSE is an end of the module */

enum { MOST_INPUT = 67108864 }; /* the bytes of a text: the checker refuses one more */

static Z_checker_instance_t checker;
static char text[MOST_INPUT + 1];

static int fail(int status, const char *what, const char *why) {
    fprintf(stderr, "check: %s: %s\n", what, why);
    return status;
}

/* Reads a file, of whatever kind, into a place of the module's memory. */
static int put(const char *path, u32 *place, u32 *length) {
    FILE *file = fopen(path, "rb");
    size_t read = file ? fread(text, 1, sizeof text, file) : 0;
    if (!file || ferror(file)) return fail(FAILED, path, strerror(errno));
    fclose(file);
    *length = (u32)read;
    *place = Z_checkerZ_take(&checker, *length);
    if (!*place) return fail(FAILED, path, "out of memory");
    memcpy(Z_checkerZ_memory(&checker)->data + *place, text, read);
    return DONE;
}

static int print_answer(void) {
    const char *answer = (const char *)Z_checkerZ_memory(&checker)->data + Z_checkerZ_answer(&checker);
    size_t length = Z_checkerZ_answer_length(&checker);
    fwrite(answer, 1, length, stdout);
    if (length == 0 || answer[length - 1] != '\n') putchar('\n');
    if (!fflush(stdout) && !ferror(stdout)) return DONE;
    return fail(FAILED, "the answer", strerror(errno));
}

typedef u32 (*check_function)(Z_checker_instance_t *, u32, u32, u32, u32);

/* The function of a command, and null of what is none. */
static check_function function_of(const char *command, int has_claim) {
    if (!strcmp(command, "check")) return has_claim ? Z_checkerZ_check_claim : Z_checkerZ_check;
    if (!strcmp(command, "check-fit")) return has_claim ? Z_checkerZ_check_fit_claim : Z_checkerZ_check_fit;
    return NULL;
}

int main(int count, char **words) {
    u32 first_length, input_length, first, input, end;
    int has_claim = count == 5 && !strcmp(words[2], "--claim");
    check_function check = count == 4 + has_claim ? function_of(words[1], has_claim) : NULL;
    if (!check)
        return fail(REFUSED, "it is `check [--claim] SHEET PROFILE`", "or `check-fit [--claim] FIT HISTORY|TIMELINE`");
    words += has_claim;
    wasm_rt_init();
    Z_checker_init_module();
    Z_checker_instantiate(&checker);
    if (put(words[2], &first, &first_length) || put(words[3], &input, &input_length)) return FAILED;
    end = check(&checker, first, first_length, input, input_length);
    if (end == MISUSE) return fail(REFUSED, words[3], "it is empty");
    return print_answer() ? FAILED : (int)end;
}
