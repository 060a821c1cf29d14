// The head of the log that a program of traced_cc writes. scripts/mte_scripts/faults/fault_log.py reads it, too.
#pragma once
#include <stdint.h>

// Two marks take turns, so that one is whole wherever the program ends. The sum is the CRC-32 of the text.
enum end { RUNNING = 1, ENDED, CUT, NO_ROOM, STOPPED, HALTED };  // the last two at the first error
struct mark { uint64_t length, sum, not_logged, state, check; };
struct origin { uint64_t length; char name[16]; };  // of a fork's log: so much of the text is that of the log of this name, in the same folder
struct head { char form[8]; uint64_t turn; struct mark marks[2]; uint64_t dropped; struct origin origin; };  // blocks that were dropped
enum { HEAD = sizeof(struct head) };
static const char FORM[8] = "ACCESS1";
