"""A month of a fleet, made up: what came to the collector each day, with all that goes wrong in a fleet, and what is true of it.

200 hosts run one of five programs each. In the third week the sizes of one program drift. Loads come twice, late, in part before and after
the whole one, and made again later in the day. Some hosts have a wrong clock, some fall silent, and some report the resident set in bytes."""

import datetime
import random
from collections.abc import Iterable

from checks import expect

HOSTS = 200
PROGRAMS = ("cache", "index", "mail", "proxy", "search")
DRIFTS = "search"  # from the third week on its strings are longer
FIRST = datetime.date(2026, 3, 1)
DAYS = [(FIRST + datetime.timedelta(at)).isoformat() for at in range(28)]
AFTER = ["2026-03-29", "2026-03-30", "2026-03-31"]  # on which more comes
DRIFT = DAYS[14]
SILENT_DAY, SILENT = DAYS[19], range(0, 60, 5)  # hosts of `cache` that send nothing from this day on
BAD_CLOCK, BAD_DAY = 7, 11  # hosts whose day is in 1970, or does not exist, on some days
CLOCK_DAYS = DAYS[3:6]
NO_SUCH_DAY = "2026-02-30"
SIZES = {program: sorted(random.Random(program).sample(range(8, 4000), 24)) for program in PROGRAMS}


def program_of(host: int) -> str:
    return PROGRAMS[host % len(PROGRAMS)]


def counts_of(host: int, day: str) -> "dict[int, int]":
    """What a host counts on a whole day."""
    chance = random.Random(f"{host} {day}")
    program = program_of(host)
    longer = 640 if program == DRIFTS and day >= DRIFT else 0
    busy = chance.uniform(0.5, 2)
    own = random.Random(f"of {program}")
    return {size + longer: max(1, int(busy * own.randrange(50, 5000) * chance.uniform(0.9, 1.1))) for size in SIZES[program]}


def number_of(day: str, hour: int) -> int:
    """The number of a load that is made at this hour of the day after."""
    return (DAYS.index(day) + 20_513) * 86_400_000 + hour * 3_600_000


def rows_of(host: int, day: str, counts: "dict[int, int]", number: int, stamped: str = "") -> "list[str]":
    """A load; STAMPED is the day that a wrong clock gives it. Without a number, as earlier releases wrote it."""
    load = f"{number}\t" if number else ""
    begin = f"{program_of(host)}\t1.{host % 2}\thost{host}\t{stamped or day}\t{load}{1 + host % 3}\t0"
    return [f"{begin}\t{size}\t{count}\n" for size, count in sorted(counts.items())]


class Month:
    """For each day the files that come, each a text, in their order; and the true profile of each program and day."""

    def __init__(self, is_numbered: bool = True) -> None:
        self.is_numbered = is_numbered
        self.files: "dict[str, list[str]]" = {day: [] for day in [*DAYS, *AFTER]}
        self.true: "dict[tuple[str, str], dict[int, int]]" = {}
        self.wrong_days = self.again = 0
        for day in DAYS:
            lines = [line for host in range(HOSTS) for line in self.rows_sent(host, day)]
            self.files[day].insert(0, "".join(lines))

    def rows_sent(self, host: int, day: str) -> "Iterable[str]":
        """What a host sends for a day into its file; more of it may come later."""
        if host in SILENT and day >= SILENT_DAY:
            return
        counts = counts_of(host, day)
        number = number_of(day, 1) if self.is_numbered else 0
        whole = rows_of(host, day, counts, number)
        if host in (BAD_CLOCK, BAD_DAY) and day in CLOCK_DAYS:
            self.wrong_days += len(whole)
            yield from rows_of(host, day, counts, number, "1970-01-01" if host == BAD_CLOCK else NO_SUCH_DAY)
            return
        sums = self.true.setdefault((program_of(host), day), {})
        for size, count in counts.items():
            sums[size] = sums.get(size, 0) + (1 + host % 3) * count
        yield from self.rows_delivered(host, day, counts, whole)

    def rows_delivered(self, host: int, day: str, counts: "dict[int, int]", whole: "list[str]") -> "Iterable[str]":
        """The rows of a load that counts, with what else comes of it."""
        what = (host + 3 * DAYS.index(day)) % 23
        late = self.files[[*DAYS, *AFTER][DAYS.index(day) + 3]]
        half = {size: 1 + count // 3 for size, count in list(counts.items())[::2]}
        half[5] = 3  # a size that only the start has
        made_early = rows_of(host, day, half, number_of(day, 0) if self.is_numbered else 0)
        self.again += what in ((1, 2, 3) if self.is_numbered else (1, 2, 4, 5, 6, 8))
        if what == 1:  # a part of the day, and then all of it
            yield from [*made_early, *whole]
        elif what == 2:  # the same, in two files
            yield from made_early
            late.append("".join(whole))
        elif what == 3 and self.is_numbered:  # all of it, and late a part that was made before
            yield from whole
            late.append("".join(made_early))
        elif what == 4:  # cut, and then whole
            yield from [*whole[: len(whole) // 2], *whole]
        elif what == 5:  # whole, and then cut
            yield from [*whole, *whole[: len(whole) // 2]]
        elif what == 6 and not self.is_numbered:
            yield from [*whole, *whole]
        elif what == 7:  # late
            late.append("".join(whole))
        elif what == 8:  # twice in two files
            yield from whole
            late.append("".join(whole))
        else:
            yield from whole

    def profiles(self) -> "dict[str, str]":
        """The files of `fleet_profiles --output` that are right."""
        return {
            f"{program}/{day}.profile": "".join(f"{size} {counts[size]}\n" for size in sorted(counts))
            for (program, day), counts in self.true.items()
        }

    def expect_profiles(self, what: str, got: "dict[str, str]") -> None:
        """Compares the files of each program and day."""
        wanted = self.profiles()
        wrong = [name for name in wanted if got.get(name) != wanted[name]]
        is_whole = len(wanted) == 140 and got.keys() == wanted.keys()
        expect(f"{what}: {len(wanted)} program-days", is_whole and not wrong, wrong)

    def turns(self, days: int) -> "Iterable[str]":
        """What came on so many days together, again and again."""
        texts = list(map("".join, self.files.values()))
        for at in range(0, len(texts), days):
            yield "".join(texts[at : at + days])

    def text(self) -> str:
        return "".join(text for texts in self.files.values() for text in texts)
