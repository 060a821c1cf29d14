/* What each host of the modules as C of wasm2c has; program_memory.c or bridge.c has the memory of an instance. Nothing
   here is proved. */
#include "wasm-rt.h"

#include <stdio.h>

void wasm_rt_trap(wasm_rt_trap_t why) {
    fprintf(stderr, "mte_tool: the engine trapped (%d)\n", (int)why);
    abort();
}

bool wasm_rt_is_initialized(void) {
    return true;
}

uint32_t wasm_rt_register_func_type(uint32_t parameters, uint32_t results, ...) {
    (void)parameters, (void)results;
    return 1;
}
