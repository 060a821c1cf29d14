"""The one mouth for what is said of a table: that it is a best one, or that this is proved.

A Claim is made by a check that was just run, with the engine's line `claim ..` inside: `check_certificate` runs
`check` or `check-fit` over the very texts, and `fit_counts` runs `fit` too. All words on a table come from one, by the
templates of claim_words.py: they name the limit, the step, the class that is forced, what was counted, and its name and
digest. What a script adds to that by its own arithmetic is called tested, and not proved, in the same sentence."""

import hashlib
import re
from collections.abc import Iterable
from dataclasses import InitVar, dataclass
from typing import Optional

from mte_scripts import certificate_texts, count_texts, program_runs, text_files
from mte_scripts.claim_words import (byte_text, claim_sentence, count_text, fill_template, having_words, join_words,
                                     limit_words, mark_claim, mebibytes, quote_name)
from mte_scripts.engines import State
from mte_scripts.entry_point import Refusal
from mte_scripts.formats import LARGEST_CLASS

AMONG = r"limit (?P<limit>\d+) step (?P<step>\d+) forced (?P<forced>\d+)"
LINES = {  # by what was counted
    "profile": re.compile(rf"claim waste (?P<waste>\d+) {AMONG} sizes (?P<sizes>\d+) requests (?P<requests>\d+) bytes (?P<bytes>\d+) "
                          r"large (?P<large>\d+)"),
    "history": re.compile(rf"claim footprint (?P<footprint>\d+) {AMONG} snapshots (?P<snapshots>\d+)"),
    "timeline": re.compile(rf"claim footprint (?P<footprint>\d+) {AMONG} events (?P<events>\d+)"),
}
DIGITS = 16  # of a digest in a sentence; the whole one stands beside the command that checks it
_KEY = object()


@dataclass(frozen=True, eq=False)
class Claim:
    """What the engine said of a certificate for a profile, a history or a timeline; of `optimal` with the numbers of its line, and of a `fit`
    without a certificate with the bound that it proves as the cost."""

    kind: str
    name: str
    digest: str
    how: str
    verdict: str
    numbers: "dict[str, int]"
    trust: program_runs.Trust
    key: InitVar[object] = None

    def __post_init__(self, key: object) -> None:
        if key is not _KEY:
            raise TypeError("a claim is made by `checked` or `fitted`, which run the engine")

    @property
    def command(self) -> str:
        return "fit" if self.is_bound else "check" if self.kind == "profile" else "check-fit"

    @property
    def holds(self) -> bool:
        """Whether none of the tables costs less than this one."""
        return self.verdict == "optimal"

    @property
    def is_bound(self) -> bool:
        """Whether the cost is a bound of all tables, which this one may not reach."""
        return self.verdict.startswith("between ")

    @property
    def cost(self) -> int:
        """That of the table, or the bound. Only where one of the two is known."""
        return self.numbers["waste" if self.kind == "profile" else "footprint"]

    def name_tables(self) -> "dict[str, str]":
        """The tables in question: their limit and step, and the class that they have."""
        return {"limit": limit_words(self.numbers["limit"], self.numbers["step"]), "having": having_words(self.numbers["forced"])}

    def name_input(self) -> str:
        """What was counted, by its name and digest."""
        return fill_template("input", name=quote_name(self.name), digest=self.digest[:DIGITS], how=self.how)

    def words(self) -> str:
        """Among which tables none costs less than this one, or than the bound."""
        numbers = self.numbers
        count = {noun: count_text(numbers.get(f"{noun}s", 0), noun)
                 for noun in ("size", "request", "snapshot", "event", "byte")}
        places = {f"{noun}s": words for noun, words in count.items()}
        large = fill_template("large", large=count_text(numbers["large"], "large one")) if numbers.get("large") else ""
        tables = fill_template("tables", **self.name_tables(), given=self.name_input())
        return fill_template(f"{self.kind}.claim", tables=tables, cost=byte_text(self.cost), large=large, **places)

    def state_verdict(self) -> str:
        """What the verdict means, whoever gave it."""
        if self.is_bound:
            return fill_template("between", cost=byte_text(self.numbers["takes"]), claim=self.words())
        if self.holds:
            return fill_template("says", command=self.command, claim=self.words())
        return fill_template("refused", command=self.command, verdict=self.verdict, given=self.name_input(),
                             meaning=self.meaning()).rstrip()

    def meaning(self) -> str:
        """What a refusal means, in a sentence; empty for an answer that is none."""
        code = self.verdict.removeprefix("refused ").split(" ")[0]
        counts, sheet, costs = (self.kind, *(("sheet", "wastes") if self.kind == "profile" else ("fit", "takes")))
        try:
            return fill_template(f"refusal.{code}", sheet=sheet, counts=counts, costs=costs)
        except KeyError:
            return ""

    def state_finding(self) -> str:
        """What is known of the table: proved, if the program is."""
        if not self.holds and not self.is_bound:
            return self.state_verdict()
        if self.trust.is_proved:
            return fill_template("known.proved", by=self.trust.by.value, says=self.state_verdict())
        return fill_template("known.unproved", why=self.trust.why, command=self.command, claim=self.words())

    def sentence(self) -> str:
        """The same for a summary or a page."""
        return mark_claim(self.state_finding())

    def refusal(self) -> str:
        """The verdict and its meaning."""
        return mark_claim(f"{self.verdict}. {self.meaning()}".rstrip())

    def answer(self) -> str:
        """The last line of a script that checks one sheet, where it holds."""
        trust = self.trust
        of_proved = "answer.proved" if trust.by is State.PROVED_HERE else "answer.project"
        return claim_sentence(of_proved if trust.is_proved else "answer.unproved", why=trust.why, by=trust.by.value,
                              claim=self.words())

    def table(self) -> str:
        """What the table is called among others."""
        return claim_sentence(f"{self.kind}.{'table' if self.holds else 'other'}")


def check_certificate(certificate: "str | bytes", counts: bytes, name: str, how: str = "",
                      file: str = "the first text") -> Claim:
    """What the engine says of a sheet or a fit, of this FILE, for the text that is of this NAME, or came of it (claim_words.how). A text that it
    refuses is refused."""
    is_fit = b"\nfootprint " in (certificate if isinstance(certificate, bytes) else certificate.encode())
    status, out, error = program_runs.over_two(["check-fit" if is_fit else "check", "--claim"], certificate, counts, file)
    if status not in (0, 1):
        raise Refusal(2 if status == 2 else 3, error or f"mte_tool ended with status {status}")
    kind = "profile" if not is_fit else "timeline" if count_texts.is_timeline(counts) else "history"
    verdict, *lines = out.decode("ascii", "replace").removesuffix("\n").split("\n")
    showed = LINES[kind].fullmatch("\n".join(lines))
    if (status == 0, bool(lines), bool(showed)) != (verdict == "optimal",) * 3:
        raise Refusal(3, f"mte_tool does not say what it showed: {out.decode('ascii', 'replace')}")
    numbers = {name: int(value) for name, value in showed.groupdict().items()} if showed else {}
    return Claim(kind, name, hashlib.sha256(counts).hexdigest(), how, verdict, numbers, program_runs.trust(), _KEY)


def fit_counts(counts: bytes, name: str, options: "tuple[int, int, bool]", how: str = "") -> "tuple[str, Claim]":
    """What `fit` prints for a history or a timeline by a limit, a step and whether class 1024 is forced; and what is claimed of that."""
    limit, step, largest = options
    words = ["fit", *certificate_texts.tuner_options(limit, step, largest)]
    status, out, error = program_runs.mte_tool(words, counts)
    answer = out.decode("ascii", "replace")
    if status not in (0, 1):
        raise Refusal(2 if status == 2 else 3,
                      f"`mte_tool {' '.join(words)}` failed: {error or f'its status is {status}'}")
    if status == 0:
        return answer, check_certificate(answer, counts, name, how, "the fit")
    takes, bound = (int(line.split()[-1]) for line in answer.splitlines()[1:])
    numbers = {"footprint": bound, "takes": takes, "limit": limit, "step": step, "forced": LARGEST_CLASS * largest,
               "events": len(text_files.lines_of(counts)) - 1}
    digest = hashlib.sha256(counts).hexdigest()
    return answer, Claim("timeline", name, digest, how, f"between {bound}", numbers, program_runs.trust(), _KEY)


def interval(claim: Claim, high: int, events: int) -> "tuple[str, str]":
    """Of a run, of which a history has moments: in one sentence what its claim means for the run, of which the first table takes at most HIGH
    bytes, and on what that rests. Without a number of events it is not known."""
    name = quote_name(claim.name)
    over = (fill_template("interval.events", events=count_text(events, "event"), name=name) if events
            else fill_template("interval.run", name=name))
    one = fill_template("interval.one", over=over, low=mebibytes(claim.cost, 0), high=mebibytes(high, 1),
                        **claim.name_tables())
    unproved = "" if claim.trust.is_proved else "If the program is right: "
    return mark_claim(f"{unproved}{one}"), claim_sentence("interval.rests", over=over, high=byte_text(high))


def place_cost(first: Claim, second: "Claim | None", place: str, size: int, count: int, block: int, fewer: int) -> str:
    """What a place in the source costs, and what the table of the changed run takes less; no claim of that where there is none."""
    terms = {"place": place, "size": byte_text(size), "count": f"{count:,}", "block": f"{block:,}", "fewer": byte_text(fewer)}
    saved = saving(saved_bytes(first, second))
    if second is None or not (first.holds and second.holds):
        return claim_sentence("who.unjudged", **terms)
    return claim_sentence("who.one" if saved else "who.none", saved=saved, **terms)


def saved_bytes(first: Claim, second: "Claim | None") -> int:
    """By how many bytes the table of a second fit takes less."""
    return first.cost - second.cost if second and first.holds and second.holds else 0


def saving(saved: "int | None") -> Optional[str]:
    """The bytes that are saved, if any are."""
    return None if (saved or 0) <= 0 else byte_text(saved) if saved < 1024 else f"{saved / 1024:,.{1 if saved < 102_400 else 0}f} KiB"


def who_input(claim: Claim) -> str:
    """Of which tables and of which run that is."""
    return claim_sentence("who.input", given=claim.name_input(), **claim.name_tables()) if claim.holds else ""


def bound(claim: Claim, load: str, divisor: int, is_own: bool) -> str:
    """What bounds each table on a load: the claim, of the load itself where it IS_OWN, else of counts that bound those of it."""
    if is_own:
        return claim.sentence()
    kind = "profile" if claim.kind == "profile" else "histories"
    return claim_sentence(f"bound.{kind}", known=claim.state_finding(), load=quote_name(load), divisor=f"{divisor:,}",
                          cost=byte_text(divisor * claim.cost))


def regret(claim: Claim, load: str, table: str, cost: "int | None", above: "float | None", unserved: "int | None" = None) -> str:
    """What a TABLE, in words, comes to beside a bound: its own waste or footprint, and how many percent more its blocks take at most,
    below 0 where it is none of the tables that are bounded. Without a cost it does not serve a size."""
    if cost is None or above is None:
        return claim_sentence("regret.unserved", table=table, size=byte_text(unserved or 0), load=quote_name(load))
    if above < 0:
        return claim_sentence("regret.below", table=table, cost=byte_text(cost))
    return claim_sentence(f"regret.{'profile' if claim.kind == 'profile' else 'history'}", table=table,
                          cost=byte_text(cost), percent=f"{above:,.2f}")


def worst(claim: Claim, loads: str, low: float, high: float, is_exact: bool) -> str:
    """Of a table for several loads: what bounds the worst percentage of every table, by a certificate of these joined, and its own."""
    own = fill_template("worst.exact" if is_exact else "worst.chosen", percent=f"{high:,.2f}")
    return claim_sentence("worst.all", known=claim.state_finding(), loads=loads, percent=f"{low:,.2f}", own=own)


def pools(claim: Claim, runs: Iterable[str], is_sampled: bool, block: "tuple[int, int]", cost: int) -> str:
    """What is known of pools: the claim is of the runs in units. A block is a multiple of so many bytes, of which so many hold no request; COST are
    the bytes of the pools, or by the bound."""
    what = fill_template("pools.snapshots" if is_sampled else "pools.runs", given=join_words(map(quote_name, runs)))
    limit = count_text(claim.numbers["limit"], "pool")
    said_ = fill_template("pools.claim", pools=limit, what=what, unit=block[0], overhead=block[1], cost=byte_text(cost))
    return claim_sentence("pools.all", known=claim.state_finding(), claim=said_)


def block_sizes(claim: Claim, given: "tuple[str, str, str]", cost: int, places: "dict[str, str]") -> str:
    """What is known of an allocator's block sizes: the claim is of a record in numbers. GIVEN are the kind of the record, its name and its
    digest; COST are the bytes of the blocks, or by the bound; PLACES are others of allocator.claim."""
    kind, name, digest = given
    over = fill_template(f"allocator.{kind}", given=fill_template("input", name=quote_name(name), digest=digest[:DIGITS], how=""))
    sizes = count_text(claim.numbers["limit"], "block size")
    said_ = fill_template("allocator.claim", sizes=sizes, over=over, cost=byte_text(cost), **places)
    return claim_sentence("allocator.all", known=claim.state_finding(), claim=said_, words=places["words"])


def shared_sizes(ends: Iterable[str]) -> str:
    """What is not known of several parts of block sizes, which meet at these."""
    return claim_sentence("allocator.shared", ends=join_words(ends))


def curve(claim: Claim, step: int, forced: int) -> str:
    """What the line over the numbers of classes shows."""
    return claim_sentence(f"{claim.kind}.curve", name=quote_name(claim.name), block=16 * step,
                          having=having_words(forced))


def unproved_note(trust: program_runs.Trust) -> str:
    """The note in a picture of what such a program computed."""
    return claim_sentence("picture.unproved", why=trust.why)
