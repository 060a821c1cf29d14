"""The pools of scripts/pools: found by `mte_tool fit`, judged by `mte_tool check-fit`, and the text of both.

The text has the lines `unit U`, `overhead O`, `pool BLOCK NUMBER` for each pool, and then the fit of the runs in units (pool_runs), with its
line `moments` where they are timelines."""

import itertools
import os
import re
from collections.abc import Iterator
from typing import NamedTuple, Optional

from mte_scripts import certificate_texts, claim_words, claims, count_texts, text_files
from mte_scripts.entry_point import Refusal, printable
from mte_scripts.pools import pool_runs
from mte_scripts.pools.pool_runs import Block, Run, ToolInput

# the first line, the second one, and each further one
FORMS = (
    ("unit BYTES", "unit (0|[1-9][0-9]{0,4})"),
    ("overhead BYTES", "overhead (0|[1-9][0-9]{0,4})"),
    ("pool BYTES NUMBER", "pool ([1-9][0-9]{0,5}) ([1-9][0-9]{0,9})"),
)
MOST_PERMUTED = 4  # runs of which all orders are tried


class Pool(NamedTuple):
    """A pool: the bytes of a block, and how many blocks."""

    block: int
    number: int


class PoolSet(NamedTuple):
    """Pools, and the fit that judges them; an empty text where there is none. Of pools that were found, GIVEN are the runs in units, and the claim
    is of these: of the fit, or of a bound."""

    block: Block
    pools: list[Pool]
    fit: str
    claim: Optional[claims.Claim] = None
    given: Optional[ToolInput] = None

    @property
    def bytes(self) -> int:
        return bytes_of(self.pools)

    def holds(self) -> list[int]:
        """The largest request of each pool."""
        return [pool.block - self.block.overhead for pool in self.pools]

    def with_reserve(self, percent: int) -> list[Pool]:
        """Each pool with so many percent more blocks, rounded up."""
        return [Pool(pool.block, -(-pool.number * (100 + percent) // 100)) for pool in self.pools]

    def sentence(self, claim: claims.Claim, runs: list[Run]) -> str:
        """What is known of the pools, by a claim of the runs in units."""
        cost = self.given.bytes_of(claim.cost, self.block) if claim.is_bound and self.given else self.bytes
        return claims.pools(claim, [run.name for run in runs], runs[0].is_sampled, self.block, cost)

    def text(self) -> str:
        """The text of pools that have a fit."""
        lines = "".join(f"pool {block} {number}\n" for block, number in self.pools)
        return f"unit {self.block.unit}\noverhead {self.block.overhead}\n{lines}{self.fit}"


def bytes_of(pools: list[Pool]) -> int:
    """What pools take: all their blocks."""
    return sum(pool.block * pool.number for pool in pools)


def find_pools(runs: list[Run], block: Block, limit: int) -> PoolSet:
    """The pools for these runs, at most so many."""
    given = pool_runs.join_runs(pool_runs.order_runs(runs), block)
    how = claim_words.how("units", unit=block.unit)
    text, claim = claims.fit_counts(given.text, name_runs(runs), (limit, given.scale, False), how)
    classes = certificate_texts.parse_class_line(text.split("\n")[0], "the answer of `mte_tool fit`")
    wanted = given.bytes_of(int(re.search(r"(?m)^footprint (\d+)$", text)[1]), block)
    pools = count_blocks(runs, [each // given.scale for each in classes], block)
    if bytes_of(pools) != wanted:
        unlike = f"the pools take {bytes_of(pools):,} bytes, and `mte_tool fit` has {wanted:,}"
        raise Refusal(3, f"{unlike}: please report it")
    return PoolSet(block, pools, "" if claim.is_bound else text, claim, given)


def name_runs(runs: list[Run]) -> str:
    return claim_words.join_words(run.name for run in runs)


def count_blocks(runs: list[Run], units: list[int], block: Block) -> list[Pool]:
    """Pools with blocks of so many units, and as many blocks as the runs need."""
    most = [max(counts) for counts in zip(*(run.most([block.holds(each) for each in units]) for run in runs))]
    return [Pool(block.unit * each, number) for each, number in zip(units, most)]


def read_pools(path: str) -> PoolSet:
    """The pools in a file. They have the form; only `judge_pools` says whether they are right."""
    name, data = printable(text_files.input_name(path)), text_files.read_some(path)
    lines = data.decode("utf-8", "replace").removesuffix("\n").split("\n")
    at = next((at for at, line in enumerate(lines) if line.startswith("classes")), len(lines))
    values = []
    for number, line in enumerate(lines[:at], 1):
        form, pattern = FORMS[min(number, 3) - 1]
        match = re.fullmatch(pattern, line)
        if not match:
            wrong = f"line {number} is no line of pools, `{form}`: {line[:60]}"
            raise Refusal(2, f"{name}: {count_texts.encoding(os.fsencode(line), number) or wrong}")
        values.append(tuple(map(int, match.groups())))
    if at < 3 or at == len(lines):
        raise Refusal(2, f"{name}: these are no whole pools: did the command that writes them fail?")
    block = Block(*values[0], *values[1])
    if block.unit not in pool_runs.UNITS or block.overhead > pool_runs.MOST_OVERHEAD:
        raise Refusal(2, f"{name}: no pools have a unit of {block.unit} bytes with {block.overhead} of overhead")
    return PoolSet(block, [Pool(*pair) for pair in values[2:]], "".join(f"{line}\n" for line in lines[at:]))


class Verdict(NamedTuple):
    """What is found of pools in a file: what is claimed of the runs in units, and the limit; why they are refused, or an empty text; and the names
    of the runs in the order of the certificate, where it is another one than that of this release."""

    claim: claims.Claim
    limit: int
    why: str
    order: str = ""


def judge_pools(pools: PoolSet, runs: list[Run]) -> Verdict:
    """Whether the pools are those of their fit, and have as many blocks as these runs need; and what `check-fit` says of the fit."""
    rows, moments, _ = pools.fit.partition("\nmoments ")
    if bool(moments) == runs[0].is_sampled:
        kinds = ("timelines", "histories")
        raise Refusal(2, f"the pools are of {kinds[not moments]}, and these runs are {kinds[runs[0].is_sampled]}")
    fit = certificate_texts.parse_fit(rows, "the fit of the pools")
    refused: list[claims.Claim] = []
    how, what = claim_words.how("units", unit=pools.block.unit), "the fit of the pools"
    for order in [pool_runs.order_runs(runs)] if pools.given else run_orders(runs):
        given = pools.given or pool_runs.join_runs(order, pools.block)
        claim = pools.claim or claims.check_certificate(pools.fit, given.text, name_runs(order), how, what)
        if claim.holds:
            listed = "" if order == pool_runs.order_runs(runs) else name_runs(order)
            return Verdict(claim, fit.limit, difference(pools, runs, given, fit), listed)
        refused.append(claim)
    return Verdict(refused[0], fit.limit, refused[0].sentence())


def run_orders(runs: list[Run]) -> "Iterator[list[Run]]":
    """The runs in their order; and in those in which earlier releases may have written the certificate, as far as they are few."""
    tried: list[list[Run]] = []
    few = [list(order) for order in itertools.permutations(runs)] if len(runs) <= MOST_PERMUTED else [runs]
    for order in (pool_runs.order_runs(runs), *few):
        if order not in tried:
            tried.append(order)
            yield order


def difference(pools: PoolSet, runs: list[Run], given: ToolInput, fit: certificate_texts.Fit) -> str:
    """How the pools differ from the table of a fit that is right; empty where they do not."""
    if fit.step != given.scale:
        return f"the fit has step {fit.step}, and for these runs it is {given.scale}: it is of other runs"
    wanted = count_blocks(runs, [each // given.scale for each in fit.classes], pools.block)
    if [pool.block for pool in pools.pools] != [pool.block for pool in wanted]:
        return f"the fit is of pools with blocks of {claim_words.join_words(pool.block for pool in wanted)} bytes"
    for pool, its in zip(pools.pools, wanted):
        if pool != its:
            return f"the pool of {pool.block:,} bytes has {pool.number:,} blocks, and the runs need {its.number:,}"
    return ""
