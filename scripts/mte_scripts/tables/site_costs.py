"""Which code requests the blocks that cost: what each place in the source takes of the footprint, each class at the moment of its most blocks,
and what is gained where it requests some bytes fewer."""

import bisect
import functools
import itertools
import os
import re
from array import array
from collections import Counter, defaultdict
from collections.abc import Callable, Iterable, Iterator, Mapping, Set
from typing import NamedTuple, Optional

from mte_scripts import certificate_texts, claim_words, claims, text_layout
from mte_scripts.entry_point import Refusal, printable
from mte_scripts.places import EXAMPLES
from mte_scripts.recording import timelines
from mte_scripts.recording.calls import Frame, Names
from mte_scripts.recording.sites import Sites
from mte_scripts.reports import flames
from mte_scripts.tables import figures
from mte_scripts.tables.figures import GRANULE, kibibytes, number, percent

PLACES, WHAT_IFS, WORKERS, PIECE = 10, 5, 4, 1 << 12
TURNS = 32  # rounds in which functions are found that hand requests on: each by those that were found before
WORTH = 1000  # bytes of the footprint, of which one has to be taken by the blocks of a place and a size that is tried
# functions that hand requests on, by their names; and a function with so many callers and sizes is one
HANDS_ON = re.compile(
    r"(^|_|::)(m|c|re|x|xm|xc|xre|z|g_m|g_)?alloc(ate)?(_|$|\(|<| in )|[mMcC]alloc|[rR]ealloc|operator new|^([\w:<>*& ]+ )?(std|__gnu_cxx)::"
    r"|^_?_?str(n)?dup|Str(N)?Dup|(^|in )libc\.so|(in )libstdc\+\+\.so|^libstdc\+\+\.so"
)
CALLERS = SIZES = 8
KEPT, KEPT_FILE = figures.OTHERS[0]
Stack = tuple[Frame, ...]


class Run(NamedTuple):
    """The events of a run, twice their site and 1 for a free; each site's size; what gives the frames of some sites, the innermost first; and
    the objects that have been found in them of which a file or a caller may be wrong."""

    events: array
    sizes: array
    frames: Callable[[Iterable[int]], Mapping[int, Stack]]
    unsure: Set[str] = frozenset()


def of_sites(record: Sites) -> Run:
    names = Names(record.modules)

    def frames(sites: Iterable[int]) -> dict[int, Stack]:
        stacks = {site: [(record.stacks[site][0], address) for address in record.stacks[site][1]] for site in sites}
        names.learn(each for stack in stacks.values() for each in stack)
        return {site: tuple(frame for each in stack for frame in names.frames[each]) for site, stack in stacks.items()}

    return Run(record.events, record.sizes, frames, names.unsure)


def timeline_of(run: Run, letters: "dict[int, bytes]") -> bytes:
    """The timeline of a run, in which some sites have a letter in the place of their size."""
    lines, of_event = timelines.event_lines(), list[bytes]()
    for site, size in enumerate(run.sizes):
        line = letters[site] + b"\n" if site in letters else lines[size]
        of_event += [line, b"-" + line]
    pieces = (run.events[at : at + PIECE] for at in range(0, len(run.events), PIECE))
    return b"timeline\n" + b"".join([b"".join(map(of_event.__getitem__, piece)) for piece in pieces])


class Part(NamedTuple):
    """The blocks of a site at the moment when their class has the most."""

    site: int
    blocks: int
    block: int  # bytes

    def bytes_taken(self) -> int:
        return self.blocks * self.block


class Fewer(NamedTuple):
    """Of a place and a size with so many bytes fewer: by how much less a table takes. The block is the one that it has now."""

    block: int
    fewer: int
    saved: Optional[int]


class WhatIf(NamedTuple):
    """A place and a size, of which so many blocks are live at the peak of their class, and what is saved by fewer bytes: by a second fit, of which
    there is a claim if it has a certificate, and by a table that stays as it is, if a smaller block of that would serve."""

    place: str
    size: int
    blocks: int
    made: Fewer
    claims: "tuple[claims.Claim, Optional[claims.Claim]]"
    kept: Optional[Fewer]

    def state_saving(self) -> str:
        made, kept = self.made, self.kept
        text = claims.place_cost(*self.claims, self.place, self.size, self.blocks, made.block, made.fewer)
        if kept and (saved := claims.saving(kept.saved)):
            fewer = claim_words.byte_text(kept.fewer)
            text += f" With {KEPT} its blocks are of {number(kept.block)}, and {fewer} fewer take {saved} less."
        return text


def granule_of(size: int) -> int:
    """The fewest bytes less by which a request falls into a smaller block, if a table has that."""
    return (size - 1) % GRANULE + 1


def at_peaks(run: Run, classes: list[int], moments: list[int]) -> list[Part]:
    """The blocks that are live of each class at the one of these moments when it has the most. Large blocks have no class."""
    place = timelines.place_in(classes)
    groups = [place(size) if size < timelines.LARGE else 0 for size in run.sizes]
    live: Counter = Counter()
    most, found, begin = [0] * (len(classes) + 2), defaultdict[int, dict](dict), 0
    for moment in moments:
        for event, times in Counter(run.events[begin:moment]).items():
            live[event >> 1] += -times if event & 1 else times
        begin = moment
        now: "dict[int, dict[int, int]]" = defaultdict(dict)
        for site, blocks in live.items():
            if blocks and groups[site]:
                now[groups[site]][site] = blocks
        for group, sites in now.items():
            if (total := sum(sites.values())) > most[group]:
                most[group], found[group] = total, sites
    return [Part(site, blocks, GRANULE * classes[group - 1]) for group, sites in found.items() for site, blocks in sites.items()]


class SiteCosts:
    """What the places of a run take of the footprint of a fit's table."""

    def __init__(self, run: Run, timed: figures.OverTime) -> None:
        self.run, self.timed = run, timed
        fit = timed.fit
        self.parts = at_peaks(run, fit.classes, sorted(set(fit.moments or figures.peaks(fit.classes, timed.text).moments_of_peaks())))
        self.footprint = sum(part.bytes_taken() for part in self.parts)
        if timed.claim.holds and self.footprint != fit.footprint:
            raise Refusal(3, f"the stacks are of another run: the blocks at the peaks take {self.footprint:,} bytes, "
                             f"not {fit.footprint:,}")
        self.stacks = run.frames([part.site for part in self.parts])
        self.handing = self.find_handing()
        self.kept = certificate_texts.class_line(os.path.join(EXAMPLES, KEPT_FILE))
        self.kept_takes = figures.footprint(self.kept, timed.text)
        self.what_ifs = sorted(self.try_changes(), key=lambda each: -(each.made.saved or 0))

    def hands_on(self, function: str) -> bool:
        return function in self.handing or bool(HANDS_ON.search(function))

    def find_handing(self) -> set[str]:
        """The functions that hand requests on, by their callers and sizes, from the innermost ones outwards."""
        self.handing = set[str]()
        for _ in range(TURNS):
            callers, sizes = defaultdict[str, set](set), defaultdict[str, set](set)
            for site, stack in self.stacks.items():
                left = list(itertools.islice((frame for frame in stack if not self.hands_on(frame.function)), 2))
                if len(left) == 2:
                    callers[left[0].function].add(left[1].function)
                    sizes[left[0].function].add(self.run.sizes[site])
            new = {each for each in callers if len(callers[each]) >= CALLERS and len(sizes[each]) >= SIZES}
            self.handing |= new
            if not new:
                break
        return self.handing

    def place(self, stack: Stack) -> str:
        """The innermost call that hands no request on."""
        return str(next((frame for frame in stack if not self.hands_on(frame.function)), stack[0] if stack else "an unknown place"))

    def places(self) -> "list[tuple[str, list[Part]]]":
        """Each place with its parts, the one that takes most first."""
        found = defaultdict[str, list](list)
        for part in self.parts:
            found[self.place(self.stacks[part.site])].append(part)
        return sorted(found.items(), key=lambda pair: (-sum(part.bytes_taken() for part in pair[1]), pair[0]))

    def try_changes(self) -> "list[WhatIf]":
        """The places and sizes with the most blocks, each with a second fit."""
        blocks_of, block_of = Counter[tuple[str, int]](), dict[tuple[str, int], int]()
        for part in self.parts:
            key = self.place(self.stacks[part.site]), self.run.sizes[part.site]
            blocks_of[key] += part.blocks
            block_of[key] = part.block
        worth = [(key, blocks) for key, blocks in blocks_of.most_common() if blocks * block_of[key] * WORTH >= self.footprint]
        able = [(key, blocks) for key, blocks in worth if key[1] > GRANULE][:WHAT_IFS]
        sizes = {size for (_, size), _ in able}
        others = self.run.frames([site for site, size in enumerate(self.run.sizes) if size in sizes])
        self.letters = {key: b"%c" % (65 + place) for place, (key, _) in enumerate(able)}
        keys = {site: (self.place(stack), self.run.sizes[site]) for site, stack in others.items()}  # also of those that were not live then
        self.lettered = timeline_of(self.run, {site: self.letters[key] for site, key in keys.items() if key in self.letters})
        made = [(key, key[1] - granule_of(key[1])) for key, _ in able]
        kept = [(key, below) for key, _ in able if (below := self.size_below(key[1]))]
        import multiprocessing  # the two take longer to import than a refusal of words
        from concurrent.futures import ProcessPoolExecutor

        with ProcessPoolExecutor(WORKERS, multiprocessing.get_context("fork"), begin_worker, (self,)) as workers:
            second, saved = list(workers.map(claim_of_worker, made)), iter(list(workers.map(saving_of_worker, kept)))
        found = []
        for ((place, size), blocks), each in zip(able, second):
            below, both = self.size_below(size), (self.timed.claim, each)
            kept_ = Fewer(figures.block_of(self.kept, size), size - below, next(saved)) if below else None
            found.append(WhatIf(place, size, blocks,
                                Fewer(block_of[place, size], granule_of(size), claims.saved_bytes(*both)), both, kept_))
        return found

    def size_below(self, size: int) -> int:
        """The most bytes that a smaller class of the table that stays serves; 0 where there is none, or it does not serve this size."""
        at = bisect.bisect_left(self.kept, timelines.need_of(size))
        return GRANULE * (self.kept[at - 1] - 1) if 0 < at < len(self.kept) and self.kept_takes is not None else 0

    def changed_timeline(self, change: "tuple[tuple[str, int], int]") -> bytes:
        """The run where this place requests another size."""
        changed, size = change
        text = self.lettered
        for key, letter in self.letters.items():
            text = text.replace(letter, b"%d" % (size if key == changed else key[1]))
        return text

    def claim_of(self, change: "tuple[tuple[str, int], int]") -> "Optional[claims.Claim]":
        """What is claimed of the fit of that run; None where that of the run itself has no certificate."""
        fit, first = self.timed.fit, self.timed.claim
        how = claim_words.how("changed")
        return (claims.fit_counts(self.changed_timeline(change), first.name, (fit.limit, fit.step, fit.forced), how)[1]
                if first.holds else None)

    def saved_by(self, change: "tuple[tuple[str, int], int]") -> Optional[int]:
        """By how many bytes the table that stays takes less over that run."""
        takes = figures.footprint(self.kept, self.changed_timeline(change))
        return None if takes is None or self.kept_takes is None else self.kept_takes - takes

    def bytes_lost(self, part: Part) -> int:
        """The bytes that rounding loses."""
        return part.blocks * (part.block - GRANULE - self.run.sizes[part.site])

    def weights(self) -> "dict[str, flames.Weighed]":
        """The bytes of each stack, the outermost call first, that its blocks take, and that they lose."""
        said = functools.lru_cache(maxsize=None)(str)  # each once, of the calls of all stacks
        stacks = {site: (*map(said, reversed(stack)), f"{number(self.run.sizes[site])} bytes") for site, stack in self.stacks.items()}
        kinds = (("footprint", Part.bytes_taken), ("lost by rounding", self.bytes_lost))
        return {kind: [(stacks[part.site], weight) for part in self.parts if (weight := of(part)) > 0] for kind, of in kinds}

    def rows(self) -> Iterator[tuple]:
        """Of each of the first places: what it takes, its share, what is lost, its blocks, their size, and the place."""
        for place, parts in self.places()[:PLACES]:
            sizes = Counter[int]()
            for part in parts:
                sizes[self.run.sizes[part.site]] += part.blocks
            size, times = sizes.most_common(1)[0]
            blocks, taken = sum(sizes.values()), sum(part.bytes_taken() for part in parts)
            said = number(size) if len(sizes) == 1 else f"{100 * times // blocks}% {number(size)}"
            yield kibibytes(taken), percent(taken, self.footprint), kibibytes(sum(map(self.bytes_lost, parts))), number(blocks), said, place

    def note_unsure(self) -> str:
        """What may be wrong of the places."""
        if not self.run.unsure:
            return ""
        objects = claim_words.join_words(sorted(self.run.unsure))
        return (f"addr2line does not read all debug symbols of DWARF 5 right: in {objects} a file may be wrong, or a "
                "caller left out. Install llvm-addr2line (of Debian's package llvm), or build with -gdwarf-4.")

    def input(self) -> str:
        return claims.who_input(self.timed.claim)

    def text(self) -> str:
        """All of it as a text."""
        rows = [("Taken", "share", "lost", "blocks", "bytes"), *(row[:-1] for row in self.rows())]
        places = ["place", *(row[-1] for row in self.rows())]
        lines = text_layout.wrap_text(self.lead())
        lines += ["", *(f"{line}  {place}" for line, place in zip(text_layout.columns(rows, left=10), places)), ""]
        for each in self.what_ifs:
            lines += text_layout.wrap_text(f"- {each.state_saving()}", indent="  ")
        return "".join(f"{printable(line)}\n"
                       for line in lines + text_layout.wrap_text(self.note_unsure()) + text_layout.wrap_text(self.input()))

    def lead(self) -> str:
        lost = sum(map(self.bytes_lost, self.parts))
        return (f"The footprint of {kibibytes(self.footprint)} by the places that request it, each class at the moment "
                f"of its most blocks. {kibibytes(lost)} of it, {percent(lost, self.footprint)}, are lost by rounding. "
                "A place is the innermost call that hands no request on.")

    def files(self, name: str) -> "dict[str, str]":
        """The text, the flame graphs, and the file for speedscope."""
        kinds = self.weights()
        pictures = {f"who{suffix}.svg": flames.svg(f"{name}: {kind}", kinds[kind]) for suffix, kind in (("", "footprint"), ("_lost", "lost by rounding"))}
        return {"who.txt": self.text(), **pictures, "who.speedscope.json": flames.speedscope(name, kinds)}


_OF_WORKER: "list[SiteCosts]" = []


def begin_worker(who: SiteCosts) -> None:
    _OF_WORKER.append(who)


def claim_of_worker(change: "tuple[tuple[str, int], int]") -> "Optional[claims.Claim]":
    return _OF_WORKER[0].claim_of(change)


def saving_of_worker(change: "tuple[tuple[str, int], int]") -> Optional[int]:
    return _OF_WORKER[0].saved_by(change)
