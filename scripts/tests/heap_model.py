"""The machine and the heap as docs/MACHINE.md and docs/HEAP.md state them, written from these two pages alone and in their order. Every test
that needs a second opinion on slots or tags asks this model: the tests of QEMU, of the page, of `find_faults` and of the documents."""

BASE = 1 << 36  # the region's first place
MASK = (1 << 64) - 1
EXCLUDE = 0x0001  # GCR_EL1.Exclude

OK, UNMAPPED, ALIGNMENT, TAG_CHECK = "ok", "unmapped", "alignment", "tag"
NOTHING = (OK, None)


def tag_of(address):
    return address >> 56 & 15


def place_of(address):
    return address & (1 << 56) - 1


def with_tag(address, tag):
    return address & ~(15 << 56) | tag << 56


def draw(seed):
    """The next four bits of the seed's sequence as a number, the first of them the lowest, and the seed afterwards."""
    x = [seed >> i & 1 for i in range(16)]
    for n in range(4):
        x.append(x[n] ^ x[n + 2] ^ x[n + 3] ^ x[n + 5])
    return sum(x[16 + i] << i for i in range(4)), sum(x[4 + i] << i for i in range(16))


def choose(start, offset, excluded):
    allowed = [t % 16 for t in range(start + 1, start + 17) if not excluded >> t % 16 & 1]
    if not allowed:
        return 0
    if offset == 0:
        return start if start in allowed else allowed[0]
    return allowed[(offset - 1) % len(allowed)]


class Machine:
    """Each call answers a fault, or OK, and a value: of a tag check fault the granule, its tag and the address's tag."""

    def __init__(self, granules, seed, tag=0):
        self.granules, self.seed, self.tag = granules, seed, tag
        self.tags, self.bytes = bytearray(granules), bytearray(16 * granules)

    def rgsr(self):
        return self.seed << 8 | self.tag

    def mapped(self, address, length):
        at = place_of(address) - BASE
        return address >> 60 == 0 and 0 <= at and at + length <= 16 * self.granules

    def irg(self, xn, xm):
        offset, self.seed = draw(self.seed)
        self.tag = choose(self.tag, offset, xm & 0xFFFF | EXCLUDE)
        return OK, with_tag(xn, self.tag)

    def addg(self, xn, u6, u4):
        return OK, with_tag(xn + 16 * u6 & MASK, choose(tag_of(xn), u4, EXCLUDE))

    def subg(self, xn, u6, u4):
        return OK, with_tag(xn - 16 * u6 & MASK, choose(tag_of(xn), u4, EXCLUDE))

    def gmi(self, xn, xm):
        return OK, xm | 1 << tag_of(xn)

    def ldg(self, xn, xt):
        if not self.mapped(xn & ~15, 16):
            return UNMAPPED, None
        return OK, with_tag(xt, self.tags[(place_of(xn) - BASE) // 16])

    def stg(self, xn, xt):
        return self.tag_store(xn, xt, 1)

    def st2g(self, xn, xt):
        return self.tag_store(xn, xt, 2)

    def stzg(self, xn, xt):
        answer = self.tag_store(xn, xt, 1)
        if answer == NOTHING:
            at = place_of(xn) - BASE
            self.bytes[at : at + 16] = bytes(16)
        return answer

    def tag_store(self, xn, xt, count):
        if xn % 16:
            return ALIGNMENT, None
        if not self.mapped(xn, 16 * count):
            return UNMAPPED, None
        first = (place_of(xn) - BASE) // 16
        self.tags[first : first + count] = bytes([tag_of(xt)]) * count
        return NOTHING

    def load(self, address, length):
        answer = self.checked(address, length)
        at = place_of(address) - BASE
        return (OK, bytes(self.bytes[at : at + length])) if answer == NOTHING else answer

    def store(self, address, data):
        answer = self.checked(address, len(data))
        if answer == NOTHING:
            at = place_of(address) - BASE
            self.bytes[at : at + len(data)] = data
        return answer

    def checked(self, address, length):
        if not self.mapped(address, length):
            return UNMAPPED, None
        at = place_of(address) - BASE
        for granule in range(at // 16, (at + length - 1) // 16 + 1):
            if self.tags[granule] != tag_of(address):
                return TAG_CHECK, (granule, self.tags[granule], tag_of(address))
        return NOTHING


FRESH, LIVE, DEAD = "fresh", "live", "dead"


class Slot:
    def __init__(self, first, number, kind):
        self.first, self.number, self.kind = first, number, kind  # the header's granule; `kind` counts the classes of the table
        self.state, self.size, self.tag, self.mark = FRESH, 0, None, 0
        self.generation = 0  # how often it was given out

    def chunk(self):
        """How many granules the chunk has."""
        return max(1, -(-self.size // 16))


class Heap:
    """What the heap does is given to `machine`: irg(xn, xm); tags(granule, count, tag); zero(granule, count, tag); copy(to, source, n).
    The marks decide what is quarantined, as the page defines it; there are no lists in memory."""

    def __init__(self, machine, table, granules, quarantine):
        self.machine, self.table, self.quarantine, self.total = machine, table, quarantine, 0
        self.slots, self.covering = [], {}
        self.fresh = []  # of each class its slots that were never given out, the lowest last
        self.dead = [[] for _ in table]  # of each class its dead slots, by their marks
        for kind, size in enumerate(table):
            share = granules // len(table)
            slots = [Slot(kind * share + k * size, len(self.slots) + k, kind) for k in range(share // size)]
            self.slots += slots
            self.fresh.append(slots[::-1])
            self.covering.update((granule, slot) for slot in slots for granule in range(slot.first, slot.first + size))

    def class_of(self, n):
        return next((kind for kind, size in enumerate(self.table) if 16 * size - 16 >= n), None)

    def refusal(self, n):
        """Why no class serves n, or None."""
        return "null large" if n > 16 * 1024 - 16 else "null no-class" if self.class_of(n) is None else None

    def is_released(self, slot):
        """Whether a dead slot is not quarantined."""
        return self.total - slot.mark > self.quarantine

    def next_slot(self, kind):
        """The slot that is given out next, and the list that it is in."""
        for slot in reversed(self.dead[kind]):
            if self.is_released(slot):
                return slot, self.dead[kind]
        return (self.fresh[kind][-1], self.fresh[kind]) if self.fresh[kind] else (None, None)

    def draw(self, slot):
        excluded = (0xAAAB if slot.number % 2 else 0x5555) | (0 if slot.tag is None else 1 << slot.tag)
        return self.machine.irg(BASE + 16 * (slot.first + 1), excluded)

    def tag_payload(self, slot):
        used, whole = slot.chunk(), self.table[slot.kind] - 1
        self.machine.tags(slot.first + 1, used, slot.tag)
        if used < whole:
            self.machine.tags(slot.first + 1 + used, whole - used, 0)

    def malloc(self, n):
        """What the report says of a refusal, or None, and the pointer."""
        refused = self.refusal(n)
        if refused:
            return refused, 0
        slot, where = self.next_slot(self.class_of(n))
        if slot is None:
            return "null exhausted", 0
        where.remove(slot)
        pointer = self.draw(slot)
        slot.state, slot.size, slot.tag, slot.generation = LIVE, n, tag_of(pointer), slot.generation + 1
        self.tag_payload(slot)
        return None, pointer

    def calloc(self, n):
        refused, pointer = self.malloc(n)
        if refused is None:
            slot = self.covering[(place_of(pointer) - BASE) // 16]
            self.machine.zero(slot.first + 1, slot.chunk(), slot.tag)
        return refused, pointer

    def slot_of(self, pointer):
        """The slot whose payload begins at a pointer, or None."""
        at = place_of(pointer) - BASE
        slot = self.covering.get(at // 16)
        return slot if slot and not pointer >> 60 and at % 16 == 0 and at // 16 == slot.first + 1 else None

    def owned(self, pointer):
        """Why a pointer names no live chunk, or None, and the slot."""
        slot = self.slot_of(pointer)
        if slot is None:
            return "refused misplaced", None
        if slot.state != LIVE:
            return "refused not-live", None
        return (None, slot) if slot.tag == tag_of(pointer) else ("refused wrong-tag", None)

    def free(self, pointer):
        if pointer == 0:
            return None
        refused, slot = self.owned(pointer)
        if refused is None:
            self.release(slot)
        return refused

    def release(self, slot):
        self.machine.tags(slot.first + 1, slot.chunk(), tag_of(self.draw(slot)))
        slot.state, slot.mark = DEAD, self.total
        self.total += 16 * self.table[slot.kind]
        self.dead[slot.kind].append(slot)

    def realloc(self, pointer, n):
        """What the report says of a refusal, or None, and the pointer afterwards."""
        if pointer == 0:
            return self.malloc(n)
        refused, slot = self.owned(pointer)
        refused = refused or self.refusal(n)
        if refused:
            return refused, pointer
        if self.class_of(n) == slot.kind:
            slot.size = n
            self.tag_payload(slot)
            return None, pointer
        refused, moved = self.malloc(n)
        if refused:
            return refused, pointer
        self.machine.copy(moved, pointer, min(slot.size, n))
        self.release(slot)
        return None, moved

    def kind(self, granule):
        """What the report calls a granule."""
        slot = self.covering.get(granule)
        if slot is None:
            return "slack"
        if granule == slot.first:
            return "header"
        if slot.state == FRESH or granule > slot.first + slot.chunk():
            return "tail"
        return "other" if slot.state == LIVE else "dead"


class Memory:
    """What a heap does to a machine: tags and bytes."""

    def __init__(self, granules, seed=1):
        self.machine = Machine(granules, seed)

    def irg(self, xn, xm):
        return self.machine.irg(xn, xm)[1]

    def tags(self, first, count, tag):
        self.machine.tags[first : first + count] = bytes([tag]) * count

    def zero(self, first, count, tag):
        self.machine.bytes[16 * first : 16 * (first + count)] = bytes(16 * count)

    def copy(self, to, source, n):
        at, start = place_of(to) - BASE, place_of(source) - BASE
        self.machine.bytes[at : at + n] = self.machine.bytes[start : start + n]


class Replay:
    """The events of a trace on a heap, one after the other."""

    def __init__(self, table, granules, seed, quarantine):
        self.memory = Memory(granules, seed)
        self.machine = self.memory.machine
        self.heap = Heap(self.memory, table, granules, quarantine)
        self.variables, self.events = [0] * 1024, 0

    def perform(self, line):
        """Performs an event: what its line in the report says after the number, or None; a load that succeeds has no bytes here."""
        self.events += 1
        word, *rest = line.split(" ")
        v, numbers = int(rest[0]), [int(each) for each in rest[1:3]]
        if word in ("malloc", "calloc"):
            said, self.variables[v] = getattr(self.heap, word)(*numbers)
        elif word == "realloc":
            said, self.variables[v] = self.heap.realloc(self.variables[v], *numbers)
        elif word == "free":
            said = self.heap.free(self.variables[v])
        elif word in ("addg", "subg"):
            w, u6, u4 = map(int, rest[1:])
            said, self.variables[v] = None, getattr(self.machine, word)(self.variables[w], u6, u4)[1]
        else:
            said = self.access(self.variables[v] + numbers[0] & MASK, numbers[1], bytes.fromhex("".join(rest[3:])))
        return said

    def access(self, address, length, byte):
        fault, what = self.machine.store(address, byte * length) if byte else self.machine.load(address, length)
        if fault == TAG_CHECK:
            return "fault tag granule %d memory %d pointer %d in %s" % (*what, self.heap.kind(what[0]))
        return "fault unmapped" if fault == UNMAPPED else None
