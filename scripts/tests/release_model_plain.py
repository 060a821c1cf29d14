"""A plain model of what Scudo has resident, for test_release_model.py: every release looks at every page anew. Beside
it the form of a record of blocks."""

import random

PAGE, GROUP, MAPPED, KINDS = 4096, 1 << 21, 1 << 18, ("request", "free", "resize", "clock", "zeroed")
SIZES = [24, 48, 100, 230, 300, 1000, 3000, 5000, 20000, 90000, 131000, 140000, 300000, 700000]
# a program with a free, and one whose frees leave holes
CALLS = """#include <stdlib.h>
#include <unistd.h>
int main(void) {
  void *volatile a = malloc(3001), *volatile b = calloc(1, 5002), *volatile c;
  usleep(400000), free(a), c = malloc(7003), b = realloc(b, 90004), free(c), free(b);
  return 0;
}"""
JOB = """#include <stdlib.h>
static void *kept[9000];
int main(void) {
  for (int i = 0; i < 9000; i++) kept[i] = malloc(i % 3 ? 777 : 200);
  for (int i = 0; i < 9000; i += i % 4 ? 1 : 2) free(kept[i]);
  for (int i = 0; i < 2000; i++) kept[i] = malloc(1555);
  return 0;
}"""


def number_bytes(value):
    more = bytearray()
    while value > 127:
        more.append(value & 127 | 128)
        value >>= 7
    return bytes([*more, value])


def record(calls):
    numbers = ([call[1] << 3 | KINDS.index(call[0]), *call[2:]] for call in calls)
    return b"".join(number_bytes(number) for call in numbers for number in call)


def calls_of(data):
    """The calls of a record."""
    numbers, value, shift = [], 0, 0
    for byte in data:
        value, shift = value | (byte & 127) << shift, shift + 7
        if byte < 128:
            numbers.append(value)
            value = shift = 0
    calls, given = [], iter(numbers)
    for each in given:
        kind = KINDS[each & 7]
        calls.append((kind, each >> 3, *([next(given)] if kind in ("resize", "clock") else [])))
    return calls


def numbers_of(calls):
    """The block of each request, by its place among the calls."""
    found, unused, number = {}, [], 0
    for at, call in enumerate(calls):
        if call[0] in ("request", "zeroed"):
            found[at] = unused.pop() if unused else number
            number += found[at] == number
        elif call[0] == "free":
            unused.append(call[1])
    return found


def request_blocks(size, number):
    return [("request", size)] * number


def cycle(size, number):
    """So many requests of a size, and the free of each."""
    return request_blocks(size, number) + [("free", block) for block in range(number)]


class Drawing:
    """Calls that are drawn, and the blocks that are live."""

    def __init__(self, seed):
        self.chosen, self.calls, self.unused, self.number = random.Random(seed), [], [], 0

    def request(self, size, kind="request"):
        """The block of a request."""
        block = self.unused.pop() if self.unused else self.number
        self.number += block == self.number
        self.calls.append((kind, size))
        return block

    def free(self, block):
        self.unused.append(block)
        self.calls.append(("free", block))


def draw_calls(seed):
    """Calls in bursts: many requests, then frees of some of them in some order."""
    to, live, now = Drawing(seed), [], 0
    chosen, sizes = to.chosen, to.chosen.sample(SIZES, 4)
    for _ in range(chosen.randrange(3, 7)):
        size = chosen.choice(sizes)
        live += [to.request(size - chosen.randrange(20), chosen.choice(["request", "zeroed"])) for _ in range(chosen.randrange(1_500_000 // (size + 200)))]
        chosen.choice([list, list.reverse, chosen.shuffle])(live)
        for _ in range(chosen.randrange(len(live) + 1)):
            if chosen.random() < 0.1:
                to.calls.append(("resize", chosen.choice(live), chosen.choice(sizes)))
            to.free(live.pop())
        now += chosen.choice([0, 900, 5000])
        to.calls.append(("clock", now, chosen.randrange(9999)))
    return to.calls


def drawn_timeline(place):
    """A timeline, and the calls of which it is, where the block at this place of those of its size is freed."""
    to, live, lines = Drawing(1), {size: [] for size in (40, 1000, 6000)}, ["timeline"]
    for _ in range(20000):
        size = to.chosen.choice(list(live))
        if live[size] and to.chosen.random() < 0.5:
            to.free(live[size].pop(place))
            lines.append(f"-{size}")
        else:
            live[size].append(to.request(size))
            lines.append(str(size))
    return "\n".join([*lines, "large", ""]).encode(), to.calls


HOSTILE_WORDS = ["", "5000 1", "-2 1 14:10:2", "x 1 14:10:2", "0 1 14:10:2,2", "0 1 0:10:2", "0 1 14:10:2;3", "0 1 14:10:99999",
                 "0 65 14:10:2", "0 1,2 14:10:2", "0 5,4,3,2,1 14:10:2", "0 1;0 14:10:2", "0 1 14:10", "0 1 14;10:2", "0 1 14:10:2 x",
                 f"0 1 14:10:{','.join(map(str, range(2, 400)))}", "0 1 14:10:2 last"]


def hostile_records():
    """Records with whether they are sure to be none."""
    chosen, valid = random.Random(3), record(draw_calls(4)[:3000])
    faulty = [[("free", 0)], [("request", 1 << 50)], [("clock", 1 << 50, 1)], [*cycle(9, 1), ("free", 0)]]
    faulty += [[("resize", 7, 9)], [("zeroed", 1 << 50)]]
    for data in [b"\x80", b"\xff" * 12, valid[:-1] + b"\xff", *map(record, faulty)]:
        yield data, True
    for _ in range(40):
        yield bytes(chosen.choices(range(256), k=400)), False
    for at in range(0, 2000, 100):
        yield valid[:at] + b"\x96" + valid[at:], False


def pages_of(size):
    return -(-size // PAGE)


class Class:
    def __init__(self, block, least, of):
        self.block, self.keep = block, max(1, min(of.most_kept, (1 << of.bytes_log) // block))
        self.delta, self.is_small = PAGE * (512 * (1 + least // 16) // 100), block < 256
        self.threshold = self.delta if self.is_small else PAGE
        self.used = self.mapped = self.popped = self.pushed = self.checkpoint = 0
        self.last, self.cache, self.groups, self.checkpoints, self.resident = -(10**12), [], {}, {}, set()

    def group(self, block):
        return block * self.block // GROUP

    def blocks_in(self, page):
        return range(page * PAGE // self.block, min(((page + 1) * PAGE - 1) // self.block + 1, self.used // self.block))


class Model:
    def __init__(self, of, interval, share=64):
        self.interval, self.hint, self.share = interval, of.most_kept, share
        self.now = self.files = self.most = self.batches = self.full = 0
        self.classes = [Class(16 * each, 16 * of.classes[0], of) for each in of.classes]
        self.large, self.kept, self.seed = {}, [None] * 32, 88172645463325252

    def note(self):
        some = [each for each in self.classes if each.used]
        groups = [group for each in some for group in each.groups.values() if group]
        self.batches = max(self.batches, sum(len(group) + 1 for group in groups))
        pages = sum(len(each.resident) for each in some) + sum(self.large.values())
        pages += sum(each[1] for each in self.kept if each)
        self.most = max(self.most, pages + pages_of(128 * self.batches) + self.files // 4)

    def below(self, number):
        for shift in (13, -7, 17):
            self.seed = (self.seed ^ (self.seed << shift if shift > 0 else self.seed >> -shift)) & (1 << 64) - 1
        return (self.seed >> 32) * number >> 32

    def list(self, c, block):
        batches = c.groups.setdefault(c.group(block), [])
        if not batches:
            c.checkpoints[c.group(block)] = 0
        if not batches or len(batches[-1]) == self.hint:
            batches.append([])
        batches[-1].append(block)

    def pop(self, c):
        group = next((group for _, group in sorted(c.groups.items()) if group), None)
        if not group:
            return
        number = min(c.keep, len(group[-1]))
        c.cache, group[-1][-number:] = group[-1][-number:], []
        if not group[-1]:
            group.pop()
        c.popped += number

    def cut(self, c):
        if (wanted := c.used + c.keep * c.block) > c.mapped:
            c.mapped += -(-(wanted - c.mapped) // MAPPED) * MAPPED
        first, number = c.used // c.block, min(8 * c.keep, (c.mapped - c.used) // c.block)
        for group in sorted({c.group(each) for each in range(first, first + number)}):
            some = [each for each in range(first, first + number) if c.group(each) == group]
            for at in range(len(some) - 1, 0, -1):
                other = self.below(at + 1)
                some[at], some[other] = some[other], some[at]
            for each in some:
                self.list(c, each)
        c.used += number * c.block

    def release(self, c):
        listed = c.used - (c.popped - c.pushed) * c.block
        if not listed:
            return
        c.checkpoint = min(c.checkpoint, listed)
        grown = listed - c.checkpoint
        if grown < PAGE or c.is_small and grown < c.threshold or self.interval < 0:
            return
        if not (c.block > PAGE and grown > 8 * PAGE) and c.last + self.interval > self.now:
            return
        chosen = self.chosen_groups(c)
        if chosen:
            marked = {block for group in chosen for batch in c.groups[group] for block in batch}
            gone = {page for page in c.resident if marked.issuperset(c.blocks_in(page))}
            c.resident, c.last, c.checkpoint = c.resident - gone, self.now, listed if gone else c.checkpoint

    def chosen_groups(self, c):
        chosen, nearest = [], GROUP
        for group, batches in sorted(c.groups.items()):
            free, before = sum(map(len, batches)) * c.block, c.checkpoints.get(group, 0)
            if not free or free <= before:
                c.checkpoints[group] = free
                continue
            if c.is_small:
                dense = min(GROUP, c.used - group * GROUP) * (99 - c.block // 16) // 100
                nearest = min(nearest, c.delta if free >= dense else dense - before)
                if free < dense or free // c.block < GROUP // c.block and free - before < c.delta:
                    continue
            c.checkpoints[group] = free
            chosen.append(group)
        if c.is_small:
            c.threshold = c.delta if nearest == GROUP else nearest
        return chosen

    def give(self, c, block):
        if drains := len(c.cache) == 2 * c.keep:
            for each in sorted(c.cache[: c.keep], key=c.group):
                self.list(c, each)
            c.cache = c.cache[c.keep :]
            c.pushed += c.keep
            self.note()
        c.cache.append(block)
        if drains:
            self.release(c)

    def touch(self, c, block, size):
        begin = block * c.block
        c.resident |= set(range(begin // PAGE, (begin + 16 + size - 1) // PAGE + 1))
        self.note()

    def take(self, number, size, copied=0, is_zeroed=False):
        """What holds a block: a class and its place there, or bytes that are mapped and pages."""
        need = max(-(-size // 16) * 16, 16) + 16
        c = next((each for each in self.classes if each.block >= need), None)
        if c is None:
            return self.map(number, size, copied, is_zeroed)
        if not c.cache:
            self.pop(c)
        if not c.cache:
            self.cut(c)
            self.pop(c)
        place = c.cache.pop()
        self.touch(c, place, c.block - 16 if is_zeroed else self.written_of(size, copied))
        return c, place

    def written_of(self, size, copied=0):
        return min(size, max(size * self.share // 64, copied, 1))

    def map(self, number, size, copied, is_zeroed):
        need, best = size + 80, None
        for each in filter(None, self.kept):
            if each[0] >= need and each[0] - need + 80 <= 4 * PAGE:
                if (each[0] - need) * 10 <= need:
                    best = each
                    break
                best = each if best is None or each[0] <= best[0] else best
        room, pages = best[:2] if best else (pages_of(need) * PAGE, 0)
        if best:
            self.kept[[each is best for each in self.kept].index(True)] = None
        written = size if is_zeroed and pages else self.written_of(size, copied)
        self.large[number] = max(pages, pages_of(written + 80))
        self.note()
        return None, room

    def unmap(self, room, pages):
        if room > 1 << 19:
            return
        if None in self.kept:
            place = self.kept.index(None)
            self.kept[place] = self.kept[0]
            self.kept[0] = [room, pages if self.interval else 0, self.now]
        else:
            self.full += 1
            if self.full == 5:
                self.full, self.kept = 0, [None] * 32
        for each in filter(None, self.kept) if self.interval > 0 else ():
            if each[2] <= self.now - self.interval:
                each[1] = 0

    def drop(self, number, held):
        self.give(*held) if held[0] else self.unmap(held[1], self.large.pop(number))

    def resize(self, number, size, held, old):
        fits = 16 + size <= held[0].block if held[0] else size + 80 <= held[1]
        if not fits or old >= size + PAGE:
            if not held[0]:
                self.large["moved"] = self.large.pop(number)
            new = self.take(number, size, min(size, old))
            self.drop("moved", held)
            return new
        if held[0]:
            self.touch(*held, self.written_of(size))
        elif (pages := pages_of(self.written_of(size) + 80)) > self.large[number]:
            self.large[number] = pages
            self.note()
        return held

    def replay(self, calls):
        """The KiB for these calls."""
        held, sizes, numbers = {}, {}, numbers_of(calls)
        for at, (kind, *given) in enumerate(calls):
            if kind in ("request", "zeroed"):
                held[numbers[at]] = self.take(numbers[at], given[0], is_zeroed=kind == "zeroed")
                sizes[numbers[at]] = given[0]
            elif kind == "free":
                self.drop(given[0], held.pop(given[0]))
            elif kind == "resize":
                held[given[0]] = self.resize(*given, held[given[0]], sizes[given[0]])
                sizes[given[0]] = given[1]
            else:
                self.now, self.files = given
                self.note()
        return 4 * self.most
