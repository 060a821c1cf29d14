/* The program on this machine: the module of the whole proved program, as C of wasm2c, with its words and its streams.
   Nothing here is proved. */
#include "wasm-rt.h"

#include "program.h"

#include <errno.h>
#include <signal.h>
#include <stddef.h>
#include <stdio.h>
#include <unistd.h>

struct Z_host_instance_t {
    Z_program_instance_t *program;
    char **words;
    size_t count;
    int error;
};
typedef struct Z_host_instance_t host;

/* A part of the module's memory; one that is not all in it ends the program. */
static void *at(host *of, u64 where, u64 length) {
    u64 size = (u64)of->program->w2c_memory.pages * 65536;
    if (where > size || length > size - where) wasm_rt_trap(WASM_RT_TRAP_OOB);
    return of->program->w2c_memory.data + where;
}

static u64 told(host *of, int64_t result) {
    of->error = errno;
    return (u64)result;
}

u64 Z_hostZ_read(host *of, u32 fd, u64 to, u64 length) {
    return told(of, read((int)fd, at(of, to, length), length));
}

u64 Z_hostZ_write(host *of, u32 fd, u64 from, u64 length) {
    return told(of, write((int)fd, at(of, from, length), length));
}

u64 Z_hostZ_lseek(host *of, u32 fd, u64 where, u32 from) {
    return told(of, lseek((int)fd, (off_t)where, (int)from));
}

u32 Z_hostZ_isatty(host *of, u32 fd) {
    return (u32)told(of, isatty((int)fd));
}

u32 Z_hostZ_errno(host *of) {
    return (u32)of->error;
}

/* The length of a word, which is copied; -1 without such a word, -2 where it has no room. */
u64 Z_hostZ_word(host *of, u64 number, u64 to, u64 room) {
    size_t length;
    if (number >= of->count) return (u64)-1;
    length = strlen(of->words[number]);
    if (length > room) return (u64)-2;
    memcpy(at(of, to, length), of->words[number], length);
    return length;
}

int main(int count, char **words) {
    Z_program_instance_t *program = runtime_place(offsetof(Z_program_instance_t, w2c_memory.data));
    host of = {program, words, (size_t)count, 0};
    signal(SIGPIPE, SIG_IGN);
    if (!program) {
        fputs("mte_tool: there are no addresses for the engine\n", stderr);
        return 3;
    }
    Z_program_init_module();
    Z_program_instantiate(program, &of);
    return (int)Z_programZ_run(program);
}
