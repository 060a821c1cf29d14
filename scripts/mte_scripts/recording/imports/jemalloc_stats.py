"""The statistics of jemalloc as JSON: requests and live blocks of each size class."""

import re
from collections import Counter

from mte_scripts.recording.imports import import_result, json_text
from mte_scripts.recording.imports.import_result import ImportResult
from mte_scripts.recording.imports.source import Source, Wrong

NAME = "jemalloc-stats"
WHAT = "the statistics of jemalloc as JSON (stats_print_opts:J)"
KINDS = (import_result.ALL, import_result.LIVE)

BEGIN = re.compile(rb'\{\s*"jemalloc"\s*:')
HOW = "MALLOC_CONF=stats_print:true,stats_print_opts:J writes them"


def read(source: Source, kind: str) -> ImportResult:
    stats = json_text.member(json_text.parse_json(source.whole(), BEGIN), "jemalloc", dict)
    try:
        sizes = [json_text.natural(each["size"]) for each in json_text.member(stats["arenas"], "bin", list)]
        arenas = json_text.member(stats, "stats.arenas", dict)
    except (KeyError, TypeError):
        raise Wrong(f"it has no sizes of bins (the option g of stats_print_opts leaves them out): {HOW}") from None
    chosen = [arenas["merged"]] if "merged" in arenas else [each for name, each in arenas.items() if name.isdigit()]
    counts: Counter = Counter()
    cached = 0
    for arena in chosen:
        try:
            add_arena(counts, arena, sizes, "nrequests" if kind == import_result.ALL else "curregs")
            cached += json_text.natural(arena.get("tcache_bytes", 0))
            counts[import_result.LARGE] += large_of(arena, kind)
        except (KeyError, TypeError):
            raise Wrong(f"an arena has no bins or large blocks (the options b and l of stats_print_opts leave them out): {HOW}") from None
    told = [
        f"jemalloc: {import_result.number(sum(counts.values()), 'block')}, each at the size of its class, which is an "
        "upper bound: of what was"
        " requested is only told that it is above the class below"
    ]
    if kind == import_result.LIVE:
        told.append(
            f"blocks that threads keep for reuse count as live; they are {import_result.number(cached, 'byte')} of "
            "all classes"
        )
    else:
        told.append("a realloc that stays in its class is no request; while a thread runs, its last requests may not be counted yet")
    return ImportResult(kind, +counts, told)


def add_arena(counts: Counter, arena: dict, sizes: list, name: str) -> None:
    bins = json_text.member(arena, "bins", list)
    if len(bins) != len(sizes):
        raise Wrong(f"it has {len(sizes)} sizes of bins, and an arena has {len(bins)}")
    for size, each in zip(sizes, bins):
        counts[import_result.counter_of(size)] += json_text.natural(each[name])


def large_of(arena: dict, kind: str) -> int:
    if kind == import_result.ALL:
        return json_text.natural(arena["large"]["nrequests"])
    return sum(json_text.natural(each["curlextents"]) for each in json_text.member(arena, "lextents", list))
