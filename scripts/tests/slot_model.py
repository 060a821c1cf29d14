"""A second opinion on what the heap answers to the errors of a log: what the laws promise of an access and of a free, by the slots of
heap_model.py. Its tags are left out, so where the answer hangs on a tag that was drawn, this says that nothing is promised."""

from heap_model import BASE, LIVE, Heap
from mte_scripts.faults.heap_answers import IN_PLACE, LAST_GRANULE, REUSED, SAME_PARITY, Meeting, Promise, Verdict
from mte_scripts.formats import FARTHEST_ACCESS

GRANULE = 16


class UntaggedMemory:
    """A memory under the heap that has neither tags nor bytes."""

    def irg(self, xn, _):
        return xn

    def tags(self, *_):
        pass


class Slots(Heap):
    """A pointer is (slot, generation) as it was given out; a chunk begins one granule after its slot."""

    def __init__(self, table, granules, quarantine):
        super().__init__(UntaggedMemory(), table, granules, quarantine)
        self.granules = granules

    def pointer(self, address):
        """The pointer that an address is, which malloc or realloc has returned; None for null."""
        slot = self.slot_of(address)
        return slot and (slot, slot.generation)

    def touched(self, pointer, offset, length):
        """The granules of an access; None where it is not mapped."""
        begin = GRANULE * (pointer[0].first + 1) + offset
        if begin < 0 or begin + length > GRANULE * self.granules:
            return None
        return range(begin // GRANULE, (begin + length - 1) // GRANULE + 1)

    def access(self, pointer, offset, length):
        """The promise on an access. The fault names the lowest granule with another tag; a granule below it whose tag may be another one
        leaves open which granule that is, but not that there is a fault."""
        granules = self.touched(pointer, offset, length)
        if granules is None:
            return Promise("refused", "fault unmapped", "law_accesses")
        is_open = None
        for granule in granules:
            differs, kind, reason = self.compare(pointer, granule)
            if differs:
                return Promise("refused", None if is_open else (granule, kind), reason)
            if differs is None:
                is_open = is_open or reason
        return Promise("open", None, is_open) if is_open else Promise("accepted", None, LAST_GRANULE)

    def compare(self, pointer, granule):
        """Whether the tag of a granule differs from the pointer's (None where the laws leave it open), the granule's kind, and why."""
        (own, generation), kind = pointer, self.kind(granule)
        if kind not in ("other", "dead"):
            return True, kind, "law_bookkeeping"
        slot = self.covering[granule]
        if (slot.number - own.number) % 2:
            return True, kind, "law_neighbours"
        if slot is not own:
            return None, kind, SAME_PARITY
        if slot.generation == generation:
            return slot.state != LIVE, kind, "law_freed"
        if slot.generation == generation + 1 and slot.state == LIVE:
            return True, kind, "law_freed"
        return None, kind, REUSED

    def moved(self, pointer, granules):
        """The slot to whose payload a pointer leads that was moved by so many granules, or None."""
        return self.slot_of(BASE + GRANULE * (pointer[0].first + 1 + granules))

    def freeing(self, pointer, granules):
        """The promise on a free of a pointer that was moved by so many granules."""
        (own, generation), slot = pointer, self.moved(pointer, granules)
        if slot is None:
            return Promise("refused", "refused misplaced", "law_own_pointer")
        if slot.state != LIVE:
            return Promise("refused", "refused not-live", "law_own_pointer")
        if slot is own and slot.generation == generation:
            return Promise("accepted", None, IN_PLACE)
        if (slot.number - own.number) % 2 or (slot is own and slot.generation == generation + 1):
            return Promise("refused", (slot.first + 1, "other"), "law_own_pointer")
        return Promise("open", None, REUSED if slot is own else SAME_PARITY)

    def meeting(self, pointer, offset, length):
        """The chunk that decides an access; None where it touches a granule of no chunk. Between two chunks there is such a granule."""
        granules = self.touched(pointer, offset, length)
        if granules is None or any(self.kind(granule) not in ("other", "dead") for granule in granules):
            return None
        return meets(pointer, self.covering[granules[0]])

    def meeting_of_free(self, pointer, granules):
        """The chunk that decides the free of a pointer that was moved by so many granules; None where there is no live one."""
        slot = self.moved(pointer, granules)
        return meets(pointer, slot) if slot and slot.state == LIVE else None


def meets(pointer, slot):
    return Meeting(pointer[0].number, pointer[1], slot.number, slot.generation, slot.state != LIVE)


def verdicts_of(log, slots):
    """The verdict on each error of a log that is asked, without its event; None for another."""
    address, pointer, verdicts = {}, {}, []

    def given(block, its):
        if its:
            address[block], pointer[block] = its, slots.pointer(its)

    for letter, first, second, third in zip(map(chr, log.letters), log.first, log.second, log.third):
        if letter in "mc":
            given(first, slots.malloc(second)[1])
        elif letter == "f" and first in address:
            slots.free(address[first])
        elif letter == "r":
            old = address.get(first)
            if old and slots.class_of(third) == slots.slot_of(old).kind:
                given(second, slots.realloc(old, third)[1])
                continue
            given(second, slots.malloc(third)[1])
            if old:
                slots.free(old)
        elif letter == "E":
            verdicts.append(verdict(log, slots, log.errors[first], pointer.get(log.errors[first].block)))
    return verdicts


def verdict(log, slots, error, pointer):
    if not pointer or error.letter == "n":
        return None
    if error.is_free():
        moved = error.offset // GRANULE
        return None if error.offset % GRANULE else Verdict("asked", slots.freeing(pointer, moved), None, True, slots.meeting_of_free(pointer, moved))
    offset, length = error.window(log.size[error.block])
    promise = slots.access(pointer, offset, length)
    if promise.reason == LAST_GRANULE and error.state == "resized":
        promise = promise._replace(reason=IN_PLACE)
    return Verdict("asked", promise, None, False, slots.meeting(pointer, offset, length)) if abs(offset) <= FARTHEST_ACCESS else None
