/* What the C that wasm2c 1.0.32 made of the modules asks of its host (runtime.c). The modules call through no table.
   Nothing here is proved. */
#ifndef WASM_RT_H
#define WASM_RT_H

#include <stdbool.h>
#include <stdint.h>
#include <stdlib.h>
#include <string.h>

#if __BYTE_ORDER__ != __ORDER_LITTLE_ENDIAN__
#error "the engines as native code want a processor that is little-endian"
#endif

/* whether no access is tested, since the addresses around a memory are its own */
#ifndef WASM_RT_MEMCHECK_SIGNAL_HANDLER
#define WASM_RT_MEMCHECK_SIGNAL_HANDLER 0
#endif
#define WASM_RT_USE_STACK_DEPTH_COUNT 0
#define UNLIKELY(x) __builtin_expect(!!(x), 0)
#define LIKELY(x) __builtin_expect(!!(x), 1)
#define wasm_rt_memcpy __builtin_memcpy

/* The modules' C holds each load where it stands by an assembler's statement, for a trap that no proved access takes. */
#ifdef WASM_RT_MODULE
#define __asm__(...)
#endif

#if WASM_RT_MEMCHECK_SIGNAL_HANDLER
/* The memory follows its instance, whose last member this is, so that no access reads first where the memory is. */
typedef struct {
    uint32_t pages, max_pages, size;
    uint8_t data[];
} wasm_rt_memory_t;
#else
typedef struct {
    uint8_t *data;
    uint32_t pages, max_pages, size;
    size_t room; /* bytes at `data`; of library_memory.c */
} wasm_rt_memory_t;
#endif

typedef enum {
    WASM_RT_TRAP_OOB,
    WASM_RT_TRAP_INT_OVERFLOW,
    WASM_RT_TRAP_DIV_BY_ZERO,
    WASM_RT_TRAP_INVALID_CONVERSION,
    WASM_RT_TRAP_UNREACHABLE,
    WASM_RT_TRAP_CALL_INDIRECT
} wasm_rt_trap_t;

typedef enum { WASM_RT_I32, WASM_RT_I64, WASM_RT_F32, WASM_RT_F64 } wasm_rt_type_t;

/* of tables, which no module has */
typedef void (*wasm_rt_function_ptr_t)(void);
typedef struct { wasm_rt_function_ptr_t func; } wasm_rt_funcref_t;
typedef struct { wasm_rt_funcref_t *data; uint32_t size; } wasm_rt_funcref_table_t;
typedef void *wasm_rt_externref_t;
typedef struct { wasm_rt_externref_t *data; uint32_t size; } wasm_rt_externref_table_t;
#define wasm_rt_externref_null_value NULL

bool wasm_rt_is_initialized(void);
uint32_t wasm_rt_register_func_type(uint32_t parameters, uint32_t results, ...);
__attribute__((noreturn)) void wasm_rt_trap(wasm_rt_trap_t why);
void wasm_rt_allocate_memory(wasm_rt_memory_t *memory, uint32_t pages, uint32_t most);
uint32_t wasm_rt_grow_memory(wasm_rt_memory_t *memory, uint32_t more);
void wasm_rt_free_memory(wasm_rt_memory_t *memory);

/* The modules' C asks for FIRST_PAGES at first, which the build finds there. */
#if WASM_RT_MEMCHECK_SIGNAL_HANDLER
/* The place of the instance whose memory begins so many bytes behind it; null where there are no addresses. */
void *runtime_place(size_t before);
#else
/* Takes memory for the instance that this thread makes next; whether there is some. */
bool runtime_can_begin(void);
#endif

#endif
