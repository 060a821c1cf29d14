// The form of a record of blocks: what the timeline of a run does not say. blocks.h writes it, and release_model.c reads it.
//
// It is numbers of seven bits a byte, the lowest first, with the highest bit where more follow. The lowest three bits of a number are what was
// called: REQUESTED or, of calloc, ZEROED, and the rest is a size; FREED_BLOCK or RESIZED, and it is a block, for RESIZED with the new size as the
// next number; CLOCK, and it is milliseconds, with the KiB of files that are resident as the next number. A request has the block that was freed
// last and is of no request yet, or else the next one, from 0 on.
#pragma once
enum { REQUESTED, FREED_BLOCK, RESIZED, CLOCK, ZEROED, KIND_BITS = 3 };
