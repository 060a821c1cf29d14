"""Makes a profile, a history or a timeline of a file of another tool: finds its format, reads it, and says what it tells of sizes.

A format is a module in FORMATS: its NAME, WHAT it is, the KINDS that it has, how a file of it has to BEGIN, and what it READS of it."""

from array import array
from types import ModuleType
from typing import Iterable, NamedTuple, Optional

from mte_scripts import count_texts, text_layout
from mte_scripts.entry_point import Refusal
from mte_scripts.recording import timelines
from mte_scripts.recording.imports import (
    bpftrace,
    dhat,
    heap_text,
    heaptrack,
    import_result,
    jemalloc_stats,
    malloc_info,
    pprof,
    scudo_stats,
)
from mte_scripts.recording.imports.import_result import ImportResult
from mte_scripts.recording.imports.source import Source, Wrong

FORMATS = (heap_text, heaptrack, dhat, jemalloc_stats, malloc_info, scudo_stats, bpftrace, pprof)
NAMES = {each.NAME: each for each in FORMATS}
NOT_THERE = {
    import_result.LIVE: "live blocks",
    import_result.TIMELINE: "order of requests and frees",
    import_result.HISTORY: "moments",
}
HELP = "\n".join(f"  {each.NAME:15}{each.WHAT}" for each in FORMATS)
HEAD = 1 << 16  # bytes by which a format is found
# what is no format, and what to do
OTHERS = (
    (b"desc: ", "it is of valgrind's massif, which has the bytes of each stack but no number of blocks: take `valgrind --tool=dhat`"),
    (b"___ Begin jemalloc statistics", "they are as a table: MALLOC_CONF=stats_print:true,stats_print_opts:J prints them as JSON"),
    (b"snapshots ", "it is a history of mte_tool already"),
    (b"timeline\n", "it is a timeline of mte_tool already"),
)


class ImportedText(NamedTuple):
    """What is written, and said."""

    what: str
    text: Iterable[bytes]
    peak: str  # the profile of the blocks live at the peak, where it is known
    told: list


def import_file(path: str, name: Optional[str], wanted: str, snapshots: int) -> ImportedText:
    """What a file has, in the format of this name or the one that it is found to be of."""
    with Source(path) as source:
        try:
            form = NAMES[name] if name else form_of(source)
            if wanted not in form.KINDS and wanted != import_result.ALL:
                raise Wrong(f"{form.WHAT} has no {NOT_THERE[wanted]}: without --{wanted} its blocks are counted")
            result = form.read(source, wanted)
        except Wrong as wrong:
            raise Refusal(2, f"{source.name}: {wrong}") from None
    if not result.counts:
        raise Refusal(3, f"{source.name}: it counts nothing")
    return convert_result(result, wanted, snapshots)


def form_of(source: Source) -> ModuleType:
    """The format of a file, by how it begins."""
    head = source.begin(HEAD)
    if not head:
        raise Refusal(3, f"{source.name} is empty: did the command that writes it fail?")
    for mark, says in OTHERS:
        if head.startswith(mark):
            raise Wrong(says)
    for form in FORMATS:
        if form.BEGIN.search(head):
            return form
    if count_texts.parse_count_line(head.split(b"\n", 1)[0]):
        raise Wrong("it is a profile of mte_tool already")
    lines = head[:1000].split(b"\n")
    if not any(count_texts.binary(line.removesuffix(b"\r")) for line in lines[:-1] or lines):
        raise Wrong(
            f"it is of no format that --help lists; --as names one. It begins with {text_layout.shorten_line(lines[0])}"
        )
    return pprof


def convert_result(result: ImportResult, wanted: str, snapshots: int) -> ImportedText:
    told = list(result.told)
    if wanted == import_result.ALL and result.kind == import_result.LIVE:
        told.append("! it has no count of all requests: its live blocks are counted, as by --live")
    profile = count_texts.fitting_text(timelines.counts_by_size(result.counts), told.append)
    if result.events is None or wanted in (import_result.ALL, import_result.LIVE):
        return ImportedText(
            "the profile", [profile.encode()], profile if result.kind == import_result.LIVE else "", told
        )
    return convert_run(result.events, result.peak_at, wanted, snapshots, told)


def convert_run(events: array, peak_at: int, wanted: str, snapshots: int, told: list) -> ImportedText:
    """The timeline, or the history of some moments."""
    codes = timelines.count(events)
    peak = count_texts.profile_text(timelines.counts_by_size(timelines.live_at(events, codes, [peak_at])[peak_at]))
    if wanted == import_result.TIMELINE:
        if sum(times * len(timelines.event_lines()[code]) for code, times in codes.items()) <= timelines.MOST_TEXT:
            return ImportedText("the timeline", timelines.text_of(events), peak, told)
        moments = {*timelines.peaks(events, codes), peak_at}
        of = f"of the {len(moments)} moments at which each class of 16 bytes had the most blocks"
        told.append(f"the timeline would have more than {timelines.MOST_TEXT:,} bytes: a history is made in its place, {of}")
    else:
        moments = {peak_at, *(round(len(events) * each / snapshots) for each in range(1, snapshots))}
        told.append(
            f"the history has {import_result.number(len(moments), 'moment')}, evenly spaced but for that of the most "
            "bytes"
        )
    history = timelines.history_of(timelines.live_at(events, codes, sorted(moments)))
    return ImportedText("the history", [count_texts.history_text(history).encode()], peak, told)
