// The trace of the process that is followed: whole lines. A live block has a variable of its own as long as there is one that is free.
#pragma once
#include "kept.h"

enum { SHARED = LAST_VARIABLE, VARIABLES = SHARED, LINE = 32 };
static struct {
  char *text;
  uint64_t length, room, events, variables, shared, wrong;  // blocks with a variable and without; frees of what is no live block
  uint64_t addresses[VARIABLES], sizes[VARIABLES];          // the live block of each variable, address 0 where it has none
  uint64_t freed[VARIABLES], freed_at[VARIABLES];           // the address that it had at its last free
  int has_ended;
} trace;
static uint64_t most_traced;  // events; 0 where no trace is wanted

// Whether there is room for an event, with the two that it may have beside it; else the trace ends here.
static int has_room(void) {
  if (trace.has_ended || (trace.has_ended = trace.events + 3 > most_traced)) return 0;
  if (trace.length + 3 * LINE > trace.room) trace.text = realloc(trace.text, trace.room = trace.room * 2 + PIECE);
  if (!trace.text) give_up("it has no memory");
  return 1;
}
#define LINE_OF(...) (trace.length += snprintf(trace.text + trace.length, LINE, __VA_ARGS__), trace.events++)

static uint64_t traced_size(uint64_t size) { return size > LARGEST_REQUEST ? LARGEST_REQUEST : size; }

// the request is made; the first byte and the last one are stored to
static void trace_request(const char *name, int variable, uint64_t address, uint64_t size) {
  if (variable < VARIABLES) trace.addresses[variable] = address, trace.sizes[variable] = size;
  if (!has_room()) return;
  size = traced_size(size);
  LINE_OF("%s %d %lu\n", name, variable, (unsigned long)size);
  if (size > 0) LINE_OF("store %d 0 1 a5\n", variable);
  if (size > 1 && size - 1 <= FARTHEST_ACCESS) LINE_OF("store %d %lu 1 5a\n", variable, (unsigned long)size - 1);
}

// the variable of a new block: the lowest one that is free
static int trace_block(const char *name, uint64_t address, uint64_t size) {
  int variable = address ? 0 : SHARED;
  while (variable < VARIABLES && trace.addresses[variable]) variable++;
  if (address && has_room()) ++*(variable < VARIABLES ? &trace.variables : &trace.shared);
  trace_request(name, variable, address, size);
  return variable;
}

// The free, or with `size` the realloc, of an address that no live block has. Where a variable had it until its own free, the event is once
// more of that one. Else it is of the block next to it, from a granule within: SHARED is moved there. The heap refuses both.
static void trace_wrong(uint64_t address, const uint64_t *size) {
  if (!has_room()) return;
  trace.wrong++;
  int found = SHARED, near = SHARED;
  for (int i = 0; i < VARIABLES; i++) {
    if (!trace.addresses[i] && trace.freed[i] == address && (found == SHARED || trace.freed_at[i] > trace.freed_at[found])) found = i;
    if (trace.addresses[i] && trace.addresses[i] < address && (near == SHARED || trace.addresses[i] > trace.addresses[near])) near = i;
  }
  if (found == SHARED) {
    uint64_t granules = 1;
    if (near < SHARED && address < trace.addresses[near] + trace.sizes[near]) granules = (address - trace.addresses[near]) / 16;
    LINE_OF("addg %d %d %lu 0\n", SHARED, near, (unsigned long)(granules < 1 ? 1 : granules > FARTHEST_MOVE ? FARTHEST_MOVE : granules));
  }
  if (size) LINE_OF("realloc %d %lu\n", found, (unsigned long)traced_size(*size));
  else LINE_OF("free %d\n", found);
}

static void trace_free(uint64_t address, int variable) {
  if (variable == SHARED) return;
  if (has_room()) {
    LINE_OF("load %d 0 1\n", variable);
    LINE_OF("free %d\n", variable);
  }
  trace.addresses[variable] = 0, trace.freed[variable] = address, trace.freed_at[variable] = trace.events;
}

// A realloc has ended; the variable of the block afterwards. Without an address it failed. While a block moves, its variable is not free.
static int trace_moved(int variable, uint64_t old, uint64_t address, uint64_t size) {
  if (variable == SHARED) return trace_block("malloc", address, size);
  if (address) trace_request("realloc", variable, address, size);
  else trace.addresses[variable] = old, trace_block("malloc", 0, size);
  return variable;
}
