"""Whether pools serve runs: how many blocks of each pool a run needs, and which pools are short. `pools --serve` prints it."""

from collections.abc import Iterator
from typing import NamedTuple

from mte_scripts import claim_words, text_layout
from mte_scripts.pools.pool_runs import Run
from mte_scripts.pools.pool_sets import Pool
from mte_scripts.tables.figures import number


class Need(NamedTuple):
    """Of a run: the most blocks of each pool that it has live at once, and how many requests at once have no pool."""

    run: Run
    blocks: "list[int]"
    without: int

    def shortages(self, pools: "list[Pool]") -> "list[tuple[Pool, int]]":
        """The pools that have too few blocks, and how many more are needed."""
        return [(pool, used - pool.number) for pool, used in zip(pools, self.blocks) if used > pool.number]

    def is_served(self, pools: "list[Pool]") -> bool:
        return not self.without and not self.shortages(pools)

    def sentences(self, pools: "list[Pool]", largest: int) -> "Iterator[str]":
        """What is known of the run."""
        if short := [f"{number(pool.block)} bytes by {number(more)}" for pool, more in self.shortages(pools)]:
            yield f"{self.run.name} is not served: short are the pools of {claim_words.join_words(short)}."
        if self.without:
            requests = f"requests of more than {number(largest)} bytes"
            yield f"{self.run.name} is not served: it has {requests}, for which there is no pool."
        if self.is_served(pools):
            yield f"{self.run.name} is served{self.run.sampled_words()}."


def need_of(run: Run, holds: "list[int]") -> Need:
    *blocks, without = run.most(holds)
    return Need(run, blocks, without or int(run.has_large))


def need_lines(pools: "list[Pool]", needs: "list[Need]") -> "list[str]":
    """The pools, and beside them the most blocks that any of the runs needs."""
    rows = [["Block", "Blocks", "Needed", "Short"]]
    for pool, *blocks in zip(pools, *(need.blocks for need in needs)):
        used = max(blocks)
        short = number(used - pool.number) if used > pool.number else ""
        rows.append([number(pool.block), number(pool.number), number(used), short])
    return text_layout.columns(rows, left=4)
