"""How far the percentage above the bound depends on which machines came: it is computed anew, each time with a certificate, for machines
that are drawn by chance from those that came, with repeats. The middle 95% of what comes out is the interval."""

import math
import random
from collections import Counter
from collections.abc import Callable, Iterator
from typing import NamedTuple, Optional

from mte_scripts.fleet import loads, rows

FEWEST = 5  # machines
LEVEL = 0.95
TOGETHER = 100  # draws whose profiles are added up together
Percent = Callable[[loads.Load], Optional[float]]


class Interval(NamedTuple):
    """In percent above the bound; without end where the table does not serve all sizes."""

    low: float
    high: float

    def text(self) -> str:
        return f"{self.low:,.2f} to {self.high:,.2f}%"


def draw_interval(load: loads.Load, percent: Percent, times: int) -> Optional[Interval]:
    """Of a load of rows, from so many draws; None where too few machines came. PERCENT says what a load comes to; where
    no machine that was drawn has anything of this kind, that is 0."""
    if len(load.hosts) < FEWEST:
        return None
    sample = sample_profiles if load.kind == "profile" else sample_histories
    drawn = [percent(each) if each else 0.0 for each in sample(load, draw_places(load, times))]
    found = sorted(math.inf if each is None else each for each in drawn)
    left_out = int(times * (1 - LEVEL) / 2)
    return Interval(found[left_out], found[-1 - left_out])


def draw_places(load: loads.Load, times: int) -> "Iterator[list[int]]":
    """For each draw as many machines as there are, by their places; one may be there twice, and then counts twice."""
    chance, number = random.Random(f"{load.program} {load.day} {load.kind}"), len(load.hosts)
    for _ in range(times):
        yield chance.choices(range(number), k=number)


def sample_profiles(load: loads.Load, drawn: "Iterator[list[int]]") -> "Iterator[Optional[loads.Load]]":
    """The profile of each draw's machines. Sums of many draws are one number, with a field of its bits for each: no field
    overflows, as no draw has a count above that of all machines, times their number."""
    width = (len(load.hosts) * max(load.counts.values(), default=0)).bit_length()
    while together := [places for _, places in zip(range(TOGETHER), drawn)]:
        often: "Counter[int]" = Counter()
        for at, places in enumerate(together):
            for place in places:
                often[place] += 1 << at * width
        machines = ((load.hosts[at].unpack(), number) for at, number in often.items())
        sums = rows.sum_profiles((weight * number, moments) for (weight, moments), number in machines)
        for at in range(len(together)):
            own = {size: count >> at * width & (1 << width) - 1 for size, count in sums.items() if size != "large"}
            yield load.replace_machines(counts=own) if any(own.values()) else None


def sample_histories(load: loads.Load, drawn: "Iterator[list[int]]") -> "Iterator[Optional[loads.Load]]":
    """The histories of each draw's machines."""
    its = iter(load.members)
    members = [next(its) if any(part.moment for part in host.parts) else None for host in load.hosts]
    for places in drawn:
        own = [member.multiply(number) for at, number in sorted(Counter(places).items()) if (member := members[at])]
        yield load.replace_machines(members=own) if own else None
