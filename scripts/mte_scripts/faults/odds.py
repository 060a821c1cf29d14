"""How probable it is that a heap with memory tags catches an error of the recorded run, if each draw takes each tag that it may take equally
often, and each run draws anew. examples/errors/README.md says what this rests on.

On the heap of docs/HEAP.md the program's calls alone decide which slot a pointer has, and what it meets. So an error is missed exactly if
two draws have the same tag, and that is counted: over the draws of the slots between the two. The other heaps have other places, so for them
only that is said which holds whatever the places are."""

import math
from collections import defaultdict
from collections.abc import Callable, Iterable, Iterator
from fractions import Fraction
from functools import lru_cache

from mte_scripts.faults.fault_log import Log
from mte_scripts.faults.heap_answers import Meeting, Verdict
from mte_scripts.faults.histories import GRANULE, BlockPast, Histories
from mte_scripts.faults.other_heaps import ALL, EVEN, PADDED, on_glibc, on_scudo
from mte_scripts.faults.real_heaps import Measurement
from mte_scripts.faults.shares import ALWAYS, NEVER, UNKNOWN, Share, as_value, combine_shares, in_words

ODD = 8  # how many tags a slot takes that has an even number; one with an odd one takes EVEN, and without parity each takes ALL
LONGEST_CHAIN = 200  # of draws: from there on the last tag is as good as independent of the first, to more than 100 digits
MOST_DRAWS, MOST_PAIRS = 8, 16  # that are counted together; of more, these are
ERROR, RESIZED, FREED, LEFT_OUT, REQUESTS = ord("E"), ord("r"), ord("f"), ord("d"), b"mc"  # letters of records
HEAPS = ("this heap", "without parity", "Scudo", "glibc")

Draw = tuple[int, int, bool]  # slot, generation, and whether it is the draw of its free
Pair = tuple[Draw, Draw]


@lru_cache(maxsize=None)
def same_after(draws: int, tags: int) -> Fraction:
    """How probable it is that a slot has a tag again after so many draws, each of which excludes the tag that was there before."""
    return Fraction(1, tags) + Fraction(tags - 1, tags) * Fraction(-1, tags - 1) ** min(draws, LONGEST_CHAIN + draws % 2)


def draws_of(meeting: Meeting) -> Pair:
    """The two draws that decide a meeting."""
    return (meeting.own, meeting.generation, False), (meeting.other, meeting.other_generation, meeting.is_dead)


def tags_of(slot: int, has_parity: bool) -> int:
    return ALL if not has_parity else EVEN if slot % 2 else ODD


def miss_probability(pairs: "Iterable[Pair]", has_parity: bool) -> "tuple[Fraction, bool]":
    """How probable it is that both draws of each pair have the same tag: (probability, whether it is exact and no upper bound)."""
    every = sorted(set(pairs))
    kept: list[Pair] = []
    for pair in every[:MOST_PAIRS]:
        if all(len(draws) <= MOST_DRAWS for draws in components([*kept, pair])[0].values()):
            kept.append(pair)
    find = join_draws(kept)
    draws_in, links_in = components(kept)
    found = Fraction(1)
    for component, draws in draws_in.items():
        names: dict[Draw, int] = {}
        number = {draw: names.setdefault(find(draw), len(names)) for draw in draws}
        links = [(number[one], number[other], length) for one, other, length in links_in[component]]
        slots = {draw[0] for draw in draws}
        found *= count_same(len(names), links, tags_of(draws[0][0], has_parity), len(slots))
    return found, len(kept) == len(every)


def join_draws(pairs: "Iterable[Pair]") -> "Callable[[Draw], Draw]":
    """A function that gives the same draw for all draws that pairs join."""
    root: dict[Draw, Draw] = {}

    def find(draw: Draw) -> Draw:
        while root.setdefault(draw, draw) != draw:
            draw = root[draw]
        return draw

    for one, other in pairs:
        root[find(one)] = find(other)
    return find


def components(pairs: "Iterable[Pair]") -> "tuple[dict, dict]":
    """The draws of the pairs, with the draws between, in groups that hang together; and of each group its links (draw, draw, length)."""
    by_slot: dict[int, set[Draw]] = defaultdict(set)
    for draw in (draw for pair in pairs for draw in pair):
        by_slot[draw[0]] |= {draw, (draw[0], draw[1], False)}
    links = []
    for draws in by_slot.values():
        given = sorted(draw for draw in draws if not draw[2])
        links += [(one, other, other[1] - one[1]) for one, other in zip(given, given[1:])]
        links += [((draw[0], draw[1], False), draw, 1) for draw in draws if draw[2]]
    find = join_draws([link[:2] for link in links] + list(pairs))
    draws_in: dict[Draw, list] = defaultdict(list)
    links_in: dict[Draw, list] = defaultdict(list)
    for draw in sorted(set().union(*by_slot.values())):
        draws_in[find(draw)].append(draw)
    for link in links:
        links_in[find(link[0])].append(link)
    return draws_in, links_in


def count_same(classes: int, links: "list[tuple[int, int, int]]", tags: int, slots: int) -> Fraction:
    """The sum over all tags of some classes of draws: of each the product over the links of how probable the second tag is after the first,
    and of the first draw of each slot. Only which classes have the same tag matters, so it goes over these partitions."""
    first = Fraction(1, tags) ** slots

    def weight(block: "list[int]", number: int) -> Fraction:
        product = first
        for one, other, length in links:
            same = same_after(length, tags)
            product *= same if block[one] == block[other] else (1 - same) / (tags - 1)
            if not product:
                return product
        return product * math.perm(tags, number)

    def walk(block: "list[int]", number: int) -> Fraction:
        if len(block) == classes:
            return weight(block, number)
        return sum((walk([*block, each], max(number, each + 1)) for each in range(min(number + 1, tags))), Fraction(0))

    return walk([], 0)


def on_this_heap(verdicts: list[Verdict], has_parity: bool = True) -> Share:
    """The share of an entry: that at least one of its errors is caught."""
    pairs, is_exact = [], True
    for verdict in verdicts:
        if verdict.kind == "left":
            is_exact = False
        elif verdict.kind == "ruled" or (verdict.kind == "asked" and is_surely_caught(verdict.meeting, has_parity)):
            return ALWAYS
        elif verdict.kind == "asked":
            pairs.append(draws_of(verdict.meeting))
    different = [pair for pair in pairs if pair[0] != pair[1]]
    if not different:
        return NEVER if is_exact else UNKNOWN
    found, is_counted = miss_probability(different, has_parity)
    return Share(1 - found, is_exact and is_counted)


def is_surely_caught(meeting: "Meeting | None", has_parity: bool) -> bool:
    if meeting is None or (has_parity and (meeting.own - meeting.other) % 2):
        return True
    one, other = draws_of(meeting)
    distance = other[1] + other[2] - one[1]
    return one[0] == other[0] and distance == 1


def pasts(log: Log) -> "Iterator[BlockPast]":
    """Of each error, what its block went through."""
    chains = {log.chain[error.block] for error in log.errors if error.block}
    wanted = {block for block, chain in enumerate(log.chain) if chain in chains}
    histories = Histories(wanted, log.is_small or log.left_out > 0)
    for letter, one, two, three in zip(log.letters, log.first, log.second, log.third):
        if letter == ERROR:
            yield histories.past(log.errors[one].block, not log.unrecorded)
        elif letter == FREED and one:
            histories.free(one, log.size[one])
        elif letter == RESIZED:
            histories.resize(one, two, log.size[one], three, one not in log.unrecorded)
        elif letter == LEFT_OUT:
            histories.leave_out(one)
        elif letter in REQUESTS:
            histories.request(one, two, log.alignment.get(one, GRANULE))


class Odds:
    """verdicts: of each error of the log. measured: what Scudo and glibc made of them, if they were played."""

    def __init__(self, log: Log, verdicts: list[Verdict], measured: "Measurement | None" = None) -> None:
        self.log, self.verdicts, self.measured = log, verdicts, measured
        self.pasts = list(pasts(log)) if log.errors else []

    def _elsewhere(self, number: int) -> tuple[Share, Share]:
        error, past = self.log.errors[number], self.pasts[number]
        size = self.log.size[error.block]
        return on_scudo(error, size, past), on_glibc(error, size, past)

    def of(self, numbers: list[int]) -> list[Share]:
        """The shares of the errors with these numbers, which are one entry, in the order of HEAPS."""
        verdicts = [self.verdicts[number] for number in numbers]
        scudo, glibc = zip(*map(self._elsewhere, numbers))
        return [on_this_heap(verdicts), on_this_heap(verdicts, has_parity=False), combine_shares(scudo), combine_shares(glibc)]

    def values(self, numbers: list[int]) -> dict[str, dict]:
        """What a machine reads of them, by heap."""
        values = {name: as_value(share) for name, share in zip(HEAPS, self.of(numbers))}
        for says, (caught, runs) in self.measured.caught(numbers).items() if self.measured else ():
            values[says.split(" ", 1)[0]].setdefault("measured", {})[says] = {"caught": caught, "runs": runs}
        return values

    def lines(self, numbers: list[int]) -> list[str]:
        return [self.line(numbers), *([self.measured.line(numbers)] if self.measured else [])]

    def line(self, numbers: list[int]) -> str:
        shares = self.of(numbers)
        if set(shares) in ({ALWAYS}, {NEVER}):
            return f"odds: {in_words(shares[0])} on {'each' if shares[0] == ALWAYS else 'any'} heap"
        if shares == [ALWAYS, ALWAYS, ALWAYS, PADDED]:
            return f"odds: always on each heap, but on glibc {PADDED.unless.partition(', ')[2]}"
        return "odds: " + ", ".join(f"{name} {in_words(share, ' seen after' * (not at))}" for at, (name, share) in enumerate(zip(HEAPS, shares)))
