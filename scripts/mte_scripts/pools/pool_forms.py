"""Pools as C: a header of their own, lwIP's lwippools.h, and the definitions that Zephyr, ThreadX and FreeRTOS take.

Each text asserts what it takes for granted of the machine, so that it does not compile where that is not so; but for lwippools.h, which lwIP
includes within an enumeration."""

from typing import NamedTuple

from mte_scripts import shell_words, text_layout
from mte_scripts.entry_point import Refusal
from mte_scripts.pools.pool_runs import Block
from mte_scripts.pools.pool_sets import Pool, bytes_of

WIDTH = 120


class Form(NamedTuple):
    """A text for C. WHAT is what --help says of it; %(1)s and so on in the text are what EACH has of a pool, once for
    each, with what stands between two. Where it HAS_POINTER, the system has one of its own in each block, a part of the
    overhead."""

    what: str
    has_pointer: bool
    each: "tuple[tuple[str, str], ...]"
    text: str


HOLDS = ("%(holds)d", ", ")
POOL = ("    POOL(%(block)d, %(number)d, %(holds)d)", " \\\n")
HOLDS_TEXT = "const unsigned %(name)s_pool_holds[%(pools)d] = {%(1)s}; /* the largest request of each */\n"
FORMS = {
    "c": Form("a header of a macro that lists the pools", False, (POOL,), """\
#ifndef %(big)s_POOLS_H
#define %(big)s_POOLS_H

/* POOL(BLOCK, NUMBER, HOLDS): so many blocks of so many bytes, each for a request of at most HOLDS bytes. */
#define %(big)s_POOLS(POOL) \\
%(1)s

#define %(big)s_POOL_COUNT %(pools)d
#define %(big)s_POOL_UNIT %(unit)d
#define %(big)s_POOL_OVERHEAD %(overhead)d
#define %(big)s_POOL_BYTES %(bytes)dUL

#endif
"""),
    "lwip": Form("lwIP's lwippools.h", False, (("LWIP_MALLOC_MEMPOOL(%(number)d, %(holds)d)\n", ""),), """\
/* For MEM_ALIGNMENT %(unit)d, and a struct memp_malloc_helper that takes %(overhead)d bytes with it. */
LWIP_MALLOC_MEMPOOL_START
%(1)sLWIP_MALLOC_MEMPOOL_END
"""),
    "zephyr": Form("a source for Zephyr, by K_MEM_SLAB_DEFINE", False, (
        HOLDS, ("K_MEM_SLAB_DEFINE(%(own)s, %(block)d, %(number)d, %(unit)d);\n", ""), ("&%(own)s", ", ")), """\
#include <zephyr/kernel.h>

BUILD_ASSERT(%(unit)d %% sizeof(void *) == 0, "a slab's block is a multiple of a pointer: take a larger --unit");
%(2)s
struct k_mem_slab *const %(name)s_pools[%(pools)d] = {%(3)s};
""" + HOLDS_TEXT),
    "threadx": Form("a source for ThreadX, by tx_block_pool_create", True, (
        HOLDS, ("static _Alignas(%(unit)d) UCHAR %(own)s[%(number)d * %(block)dUL];\n", ""), ("""\
    if (status == TX_SUCCESS)
        status = tx_block_pool_create(&%(name)s_pools[%(at)d], "%(own)s", %(block)d - sizeof(UCHAR *),
                                      %(own)s, sizeof %(own)s);
""", "")), """\
#include "tx_api.h"

_Static_assert(sizeof(UCHAR *) <= %(overhead)d, "each block begins with a pointer of ThreadX: take a larger --overhead");
_Static_assert(%(unit)d %% sizeof(ULONG) == 0, "a block is a multiple of ULONG: take a larger --unit");
%(2)s
TX_BLOCK_POOL %(name)s_pools[%(pools)d];
""" + HOLDS_TEXT + """
UINT %(name)s_pools_create(void)
{
    UINT status = TX_SUCCESS;
%(3)s    return status;
}
"""),
    "freertos": Form("a source for FreeRTOS, with a static queue of the free blocks of each pool", True, (HOLDS, ("""\
static _Alignas(%(unit)d) unsigned char %(own)s[%(number)d][%(holds)d];
static uint8_t %(own)s_free[%(number)d * sizeof(void *)];
static StaticQueue_t %(own)s_queue;
""", ""), ("""\
    %(name)s_pools[%(at)d] = xQueueCreateStatic(%(number)d, sizeof(void *), %(own)s_free, &%(own)s_queue);
    for (size_t at = 0; at < %(number)d; at++) {
        void *block = %(own)s[at];
        (void)xQueueSend(%(name)s_pools[%(at)d], &block, 0);
    }
""", "")), """\
/* Each pool is a queue of pointers to its free blocks: xQueueReceive takes a block, xQueueSend gives it back. */
#include "FreeRTOS.h"
#include "queue.h"

_Static_assert(sizeof(void *) == %(overhead)d, "a block has a pointer in its queue: that is the --overhead");
%(2)s
QueueHandle_t %(name)s_pools[%(pools)d];
""" + HOLDS_TEXT + """
void %(name)s_pools_create(void)
{
%(3)s}
"""),
}


def comment_text(said: list[str]) -> str:
    """Sentences as a comment of C."""
    lines = [line for text in said for line in text_layout.wrap_text(text.replace("*/", "* /"), WIDTH - 3)]
    return "/* " + "\n * ".join(lines) + " */\n"


def fill_form(form: Form, name: str, block: Block, pools: list[Pool]) -> str:
    """The C of a form."""
    words = {"name": name, "big": name.upper(), "pools": len(pools), "bytes": bytes_of(pools), **block._asdict()}
    words_of = [
        {**words, **pool._asdict(), "own": f"{name}_pool_{pool.block}", "holds": pool.block - block.overhead, "at": at}
        for at, pool in enumerate(pools)
    ]
    each = {str(at): between.join(text % own for own in words_of) for at, (text, between) in enumerate(form.each, 1)}
    return form.text % {**words, **each}


def form_text(form: str, name: str, block: Block, pools: list[Pool], said: list[str]) -> str:
    """The text of this form; SAID are sentences for its comment."""
    its, wrong = FORMS[form], ""
    if its.has_pointer and (block.overhead < 4 or block.overhead % 4):
        wrong = f"each block has a pointer, so --overhead is its bytes, 4 or 8, and not {block.overhead}"
    elif form == "freertos" and block.overhead % block.unit:
        why = f"--overhead {block.overhead} has to be a multiple of --unit {block.unit}"
        wrong = f"the pointer stands apart from its block, so {why}"
    elif its.has_pointer and pools[0].block == block.overhead:
        wrong = f"blocks of {pools[0].block} bytes hold nothing beside their overhead: leave requests of 0 bytes out"
    if wrong:
        raise Refusal(2, f"--as {form}: {wrong}")
    made = f"Made by {shell_words.command_name('pools')}: blocks of {bytes_of(pools):,} bytes in all."
    return comment_text([made, *said]) + fill_form(its, name, block, pools)
