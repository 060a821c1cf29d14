"""What the page has to show of a heap after each event of a trace, by heap_model.py. page_engines.js says what it shows, in the same words."""

import hashlib

from heap_model import BASE, DEAD, FRESH, LIVE, Replay, place_of

KINDS = {"slack": 0, "header": 1, "tail": 2, "dead": 3, "other": 4}
QUARANTINED, RELEASED = 2, 3


def digest(data):
    return hashlib.md5(data if isinstance(data, bytes) else data.encode()).hexdigest()


class SlotHistory:
    """A replay, and who used each slot and when: of a slot the variable that it was given to last, the event of that, and that of its free."""

    def __init__(self, line, granules, seed, quarantine):
        self.replay = Replay([int(word) for word in line.split(" ")[1:]], granules, seed, quarantine)
        self.heap, self.granules, self.users, self.given = self.replay.heap, granules, {}, set()

    def slots_of_granules(self):
        """The number of the slot over each granule, which slack has not."""
        slots = map(self.heap.covering.get, range(self.granules))
        return " ".join("none" if slot is None else str(slot.number) for slot in slots)

    def step(self, line):
        """Performs an event: what the report says of it, if it is not data, and the granules that the page frames."""
        word, v = line.split(" ")[0], int(line.split(" ")[1])
        before = self.replay.variables[v]
        said = self.replay.perform(line)
        self.given.add(v)
        after = self.replay.variables[v]
        if word in ("malloc", "calloc", "realloc"):
            self.note(self.heap.slot_of(before), v)
            self.note(self.heap.slot_of(after), v)
            return said, self.frame(after, said)
        if word == "free":
            self.note(self.heap.slot_of(before), v)
            return said, self.frame(before, said)
        return said, "none" if word in ("addg", "subg") else self.frame_of_access(before, line.split(" "), said)

    def note(self, slot, v):
        """Notes who uses a slot now, or that it was freed."""
        if slot is None or slot.state == FRESH:
            return
        generation, user, made, freed = self.users.get(slot.number, (0, 0, 0, 0))
        if generation != slot.generation:
            generation, user, made, freed = slot.generation, v, self.replay.events, 0
        if slot.state == DEAD and not freed:
            freed = self.replay.events
        self.users[slot.number] = generation, user, made, freed

    def frame(self, pointer, said):
        """The chunk that an event is about. A slot that was never given out has none: the first granule of its payload."""
        slot = self.heap.slot_of(pointer)
        if slot is None:
            return "none"
        return f"{slot.first + 1} {slot.first + (slot.chunk() if slot.generation else 1)}{' fault' if said else ''}"

    def frame_of_access(self, pointer, words, said):
        """The granules of an access; of a tag fault the one that it names, with both tags."""
        if said == "fault unmapped":
            return "none"
        if said:
            _, _, _, granule, _, memory, _, tag, *_ = said.split(" ")
            return f"{granule} {granule} fault {memory} {tag}"
        begin, length = place_of(pointer) - BASE + int(words[2]), int(words[3])
        return f"{begin // 16} {(begin + length - 1) // 16}"

    def queue(self):
        """The slots of the quarantine, the one freed first in front."""
        held = [slot for slots in self.heap.dead for slot in slots if not self.heap.is_released(slot)]
        return sorted(held, key=lambda slot: slot.mark)

    def picture(self):
        """The tags of all granules, and their kinds."""
        kinds = bytearray(self.granules)
        for slot in self.heap.slots:
            size = self.heap.table[slot.kind]
            chunk = slot.chunk() if slot.generation else 0
            kind = KINDS["other" if slot.state == LIVE else "dead"]
            kinds[slot.first : slot.first + size] = [KINDS["header"], *[kind] * chunk, *[KINDS["tail"]] * (size - 1 - chunk)]
        return bytes(self.replay.machine.tags) + bytes(kinds)

    def words_of(self, slot):
        """What the page says of a slot."""
        state = {FRESH: 0, LIVE: 1}.get(slot.state)
        if state is None:
            state = RELEASED if self.heap.is_released(slot) else QUARANTINED
        words = [slot.number, slot.first, self.heap.table[slot.kind], state, slot.size, slot.tag or 0, *self.users.get(slot.number, [0])]
        return " ".join(map(str, words))

    def now(self):
        """What holds after the events so far."""
        return {
            "picture": digest(self.picture()),
            "slots": digest("\n".join(map(self.words_of, self.heap.slots))),
            "variables": " ".join(f"{v} {self.replay.variables[v]}" for v in sorted(self.given)),
            "queue": " ".join(str(slot.number) for slot in self.queue()),
        }


def difference(line, trace, options, got):
    """What the page shows otherwise than the model has it, or None; GOT is what page_engines.js says."""
    lines, shown = trace.split("\n")[:-1], SlotHistory(line, **options)
    if got.get("wrong"):
        return got["wrong"]
    if len(got["after"]) != len(lines) + 1:
        return f"there are {len(got['after']) - 1} events"
    if got["granules"] != digest(shown.slots_of_granules()):
        return "a granule is in another slot"
    for k, theirs in enumerate(got["after"]):
        report, frame = shown.step(lines[k - 1]) if k else (None, "none")
        ours = {**shown.now(), "report": report, "frame": frame}
        for part, its in ours.items():
            if theirs[part] != its:
                return f"after event {k} its {part} is {theirs[part]}, the model has {its}"
    return None
