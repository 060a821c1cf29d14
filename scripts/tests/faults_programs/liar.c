// A heap between the reader and the library, which lies once, as the variable LIE says.
#include <mte_tool.h>
#include <stdlib.h>
// What is asked has an outcome; what is right has none.
static mte_tool_end told(mte_tool_end end, mte_tool_outcome *outcome) {
  static int has_lied;
  char lie = has_lied ? 0 : *getenv("LIE");
  if (end == MTE_TOOL_DONE && !outcome && lie == 'r') return has_lied = 1, MTE_TOOL_NO;
  if (end != MTE_TOOL_NO || !outcome || outcome->code != MTE_TOOL_CODE_TAG_CHECK) return end;
  if (lie == 'l') return has_lied = 1, outcome->code = 0, MTE_TOOL_DONE;
  if (lie == 'g') has_lied = 1, outcome->granule++;
  if (lie == 'o' && outcome->granule_kind == 3) has_lied = 1, outcome->granule_kind = 4;
  return end;
}
mte_tool_end __real_mte_tool_heap_load(mte_tool_heap *, uint64_t, void *, size_t, mte_tool_outcome *);
mte_tool_end __wrap_mte_tool_heap_load(mte_tool_heap *heap, uint64_t address, void *room, size_t length, mte_tool_outcome *outcome) {
  mte_tool_end end = __real_mte_tool_heap_load(heap, address, room, length, outcome);
  return length > 1 ? told(end, outcome) : end;
}
mte_tool_end __real_mte_tool_heap_store(mte_tool_heap *, uint64_t, const void *, size_t, mte_tool_outcome *);
mte_tool_end __wrap_mte_tool_heap_store(mte_tool_heap *heap, uint64_t address, const void *bytes, size_t length, mte_tool_outcome *outcome) {
  return told(__real_mte_tool_heap_store(heap, address, bytes, length, outcome), outcome);
}
