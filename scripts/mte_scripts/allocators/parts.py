"""A part of an allocator's block sizes in numbers for `mte_tool`, which fits them as if they were classes.

Each block size that there may be has a number from 2 to 1024, its cost in the grains that all costs are multiples of.
Numbers ascend, since a size that costs no less than a larger one is left out. A request is given to the program as one
of `16 N - 16` bytes, N the number of the smallest block that holds it: so it needs N granules, each class is a block
size, and a footprint is the cost in grains of 16 bytes. A size that has to stay has more blocks at each moment, which
cost each table with it the same; without it, more. The largest one has one."""

import itertools
import math
from bisect import bisect_left
from typing import NamedTuple

from mte_scripts import certificate_texts, claim_words, claims
from mte_scripts.allocators.models import Model
from mte_scripts.allocators.records import Record
from mte_scripts.entry_point import Refusal, printable
from mte_scripts.formats import GRANULE_BYTES, MOST_CLASSES, MOST_COUNT, MOST_INPUT
from mte_scripts.tables import figures

HELD = MOST_COUNT * 4 // 5  # blocks of a size that has to stay
FITTED = "the answer of `mte_tool fit`"


class Part:
    """The block sizes of a model above one of its ends, up to the next."""

    def __init__(self, model: Model, low: int, top: int) -> None:
        self.model, self.low, self.top = model, low, top
        self.own = [size for size in model.own if low < size <= top]
        costs: "dict[int, int]" = {}
        multiples = range(low - low % model.unit + model.unit, top + 1, model.unit)
        for size in sorted({*multiples, *self.own}, reverse=True):
            if not costs or model.cost(size) < min(costs.values()):
                costs[size] = model.cost(size)
        self.cost = dict(sorted(costs.items()))
        self.sizes = list(self.cost)
        self.grain = math.gcd(*costs.values())
        self.times = 1 if min(costs.values()) > self.grain else 2  # no class is below two granules
        self.number = {size: cost * self.times // self.grain for size, cost in self.cost.items()}
        self.size = {number: size for size, number in self.number.items()}
        self.held = {**{size: HELD for size in model.forced if low < size < top}, top: 1}

    def block(self, request: int) -> int:
        """The smallest block that holds a request; 0 where it is no request of this part."""
        wanted = max(request, 1) + self.model.header
        return self.sizes[bisect_left(self.sizes, wanted)] if self.low < wanted <= self.top else 0

    def text(self, record: Record) -> bytes:
        """The record as the program gets it."""
        if record.kind == "timeline" and len(self.held) > 1:
            instead = "which a timeline can't say: give a history or a profile"
            raise Refusal(2, f"{self.model.title} keeps some of its sizes, {instead}")
        given = {size: self.request_for(block) for size in record.sizes if (block := self.block(size))}
        text = record.replace_sizes(given, {self.request_for(size): count for size, count in self.held.items()})
        if len(text) > MOST_INPUT:
            wrong = f"it has {len(text):,} bytes in numbers, and mte_tool reads {MOST_INPUT:,}"
            raise Refusal(2, f"{printable(record.name)}: {wrong}: give a history")
        return text

    def request_for(self, size: int) -> int:
        """The request that needs as many granules as the number of a block size."""
        return GRANULE_BYTES * self.number[size] - GRANULE_BYTES

    def cost_of(self, footprint: int) -> int:
        """What a footprint, or a bound of it, is in bytes, without the blocks that were added."""
        added = sum(GRANULE_BYTES * self.number[size] * count for size, count in self.held.items())
        return -(-(footprint - added) * self.grain // (GRANULE_BYTES * self.times))

    def footprint(self, sizes: "list[int]", text: bytes) -> int:
        """What block sizes take over a record, as the program gets it: those of this part, with those that stay."""
        wanted = sorted({size for size in sizes if self.low < size <= self.top} | self.held.keys())
        if others := [size for size in wanted if size not in self.number]:
            wrong = f"no block of {others[0]:,} bytes that costs less than a larger one"
            raise Refusal(2, f"{self.model.title} has {wrong}")
        return self.cost_of(figures.footprint([self.number[size] for size in wanted], text) or 0)


class PartFit(NamedTuple):
    """Of a part: the text that was fitted, the answer of `fit`, its claim, and the block sizes of its table."""

    part: Part
    text: bytes
    answer: str
    claim: claims.Claim
    sizes: "list[int]"

    def sentence(self, record: Record) -> str:
        """What is known of it."""
        part, given = self.part, (record.kind, record.name, record.digest)
        places = {"allocator": part.model.title, "words": part.model.words, "unit": str(part.model.unit)}
        places |= {"first": f"{part.sizes[0]:,}", "top": f"{part.top:,}"}
        places["kept"] = claim_words.join_words(f"{size:,}" for size in part.held)
        return claims.block_sizes(self.claim, given, part.cost_of(self.claim.cost), places)


def fit_part(part: Part, text: bytes, limit: int, record: Record) -> PartFit:
    how = claim_words.how("retabled", allocator=part.model.title)
    answer, claim = claims.fit_counts(text, record.name, (limit, 1, False), how)
    if not claim.holds and not claim.is_bound:
        raise Refusal(3, claim.sentence())
    classes = certificate_texts.parse_class_line(answer.split("\n")[0], FITTED)
    if not {*classes} <= part.size.keys():
        raise Refusal(3, f"{FITTED} has a class that is no block size of {part.model.title}: {classes}")
    sizes = [part.size[each] for each in classes]
    if missing := part.held.keys() - {*sizes}:
        raise Refusal(3, f"the record has so many blocks that {min(missing):,} bytes are not kept: give a shorter one")
    return PartFit(part, text, answer, claim, sizes)


def fit_parts(model: Model, record: Record, budget: int) -> "list[PartFit]":
    """The tables of the parts, which have so many block sizes at most together."""
    parts = [Part(model, low, top) for low, top in zip(model.ends, model.ends[1:])]
    fewest, most = sum(len(part.held) for part in parts), model.exact + 1 if model.exact else MOST_CLASSES * len(parts)
    if not fewest <= budget <= most:
        raise Refusal(2, f"--limit takes a number from {fewest} to {most} for {model.title}, and not {budget}")
    texts = [part.text(record) for part in parts]
    limits = [min(MOST_CLASSES, budget - fewest + len(part.held)) for part in parts]
    found = [fit_part(part, text, limit, record) for part, text, limit in zip(parts, texts, limits)]
    for at, (limit, share) in enumerate(zip(limits, share_sizes(found, budget))):
        if share != limit:
            found[at] = fit_part(parts[at], texts[at], share, record)
    return found


def share_sizes(found: "list[PartFit]", budget: int) -> "tuple[int, ...]":
    """How many block sizes each part has: by the rows of fits that may use all, which bound what fewer take; where one
    has no rows, as the allocator has them."""
    if len(found) == 1:
        return (budget,)
    if any(fit.claim.is_bound for fit in found):
        own = sum(len(fit.part.own) for fit in found)
        first = [max(len(fit.part.held), budget * len(fit.part.own) // own) for fit in found[:-1]]
        return tuple(min(MOST_CLASSES, share) for share in (*first, budget - sum(first)))
    rows = [[row[0] for row in certificate_texts.parse_fit(fit.answer).rows] for fit in found]
    taken = [[fit.part.cost_of(cost) for cost in row] for fit, row in zip(found, rows)]
    counts = [range(len(fit.part.held), len(row) + 1) for fit, row in zip(found, rows)]
    shares = [share for share in itertools.product(*counts) if sum(share) <= budget]
    return min(shares, key=lambda share: (sum(row[count - 1] for row, count in zip(taken, share)), sum(share)))


def filled_sizes(model: Model, sizes: "list[int]", record: Record) -> "list[int]":
    """Block sizes below the largest, as many as there have to be: first such that few sizes of requests get, and its
    own."""
    top = model.ends[-1]
    parts = [Part(model, low, end) for low, end in zip(model.ends, model.ends[1:])]
    needed = {part.block(size) for part in parts for size in record.sizes}
    found, every = {*sizes} - {top}, [size for part in parts for size in part.sizes if size < top]
    while len(found) < model.exact:
        left = [size for size in every if size not in found]
        below = {size: max((each for each in found if each < size), default=0) for size in left}
        served = {size: sum(below[size] < each <= size for each in needed) for size in left}
        found.add(min(left, key=lambda size: (served[size], size not in model.own, -size)))
    return sorted(found)
