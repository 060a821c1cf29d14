"""Finds static pools for the runs of a program, checks them, and prints them as C. `pools --help` says all."""

import argparse
import os
import re
import textwrap
from collections.abc import Iterable, Iterator
from typing import Any

from mte_scripts import claim_words, shell_words, text_files, text_layout
from mte_scripts.entry_point import Refusal, printable, say
from mte_scripts.formats import LARGEST_SIZE, MOST_CLASSES
from mte_scripts.pools import pool_forms, pool_runs, pool_serving, pool_sets
from mte_scripts.pools.pool_sets import Pool, PoolSet
from mte_scripts.tables.figures import number, percent
from mte_scripts.words import Words, name_among, number_among, number_between

HELP = f"""\
Find static pools for the runs of a program: which sizes of blocks, and how many of each. Pools are what firmware has in place
of a heap. Each has so many blocks of one size in static memory, and a request takes a block of the pool with the smallest
blocks that hold it, and of no other.

Usage: pools [OPTION..] RUN..

With --limit it finds pools for the runs, with --check it checks the pools of a file for them, with --serve it says whether these
serve them; with --read it prints the pools of a file, and takes no run. A RUN is a timeline, as docs/FORMATS.md has it and
`profile_program --timeline` records it: all requests and frees of a run in their order. It may also be a history, which knows
some moments alone: what was live between these may have no block. `-` is standard input.

  --limit K        at most so many pools, 1 to 32
  --unit U         blocks are multiples of U bytes: 4, 8, 16 or 32; 8 where it is left out
  --overhead O     so many bytes of each block hold no request, 0 to 4096; 0 where it is left out
  --today POOLS    pools to compare with, as 128x156,256x592: the bytes of a block with its overhead, and how many blocks
  --reserve P      P percent more blocks in each pool, rounded up, in what is printed; and what they cost. 0 to 1000
  --as c|lwip|zephyr|threadx|freertos
                   print the pools as C, and not the summary
  --name NAME      what names begin with in C; app where it is left out
  --certificate FILE
                   also write the pools with their certificate to FILE
  --check FILE     check such a file for these runs, in any order: the same pools, and no others with fewer bytes
  --serve FILE     say whether the pools of such a file, with --reserve P more blocks, serve each of these runs, which may be others
                   than those of the file, and which pools are short
  --read FILE      take the pools of such a file
  --each           print for each number of pools from 1 to K what they take, and not the pools: so K can be chosen
  --units          print the runs in units, for `mte_tool`: the fit in FILE is of these

The forms are
{textwrap.indent("".join(f"{name:10}{form.what}" + chr(10) for name, form in pool_forms.FORMS.items()), "  ")}
In lwIP, the unit is MEM_ALIGNMENT, and the overhead the bytes of struct memp_malloc_helper, rounded up to it. Zephyr has no
overhead. ThreadX and FreeRTOS have a pointer for each block: the overhead is 4 or 8. Sizes are those requested; what an
application adds to each block is overhead too.

Several runs, as of a test suite, get pools that serve each of them, one run at a time. At the end of a run its live blocks are
freed, so the runs one after the other are a timeline. At each of its moments the blocks of one run alone are live: it has the
moments of all runs, and a pool needs the most blocks that it has live in any run. The summary says which run that is.

{claim_words.general_sentence("pools")}

A request takes (S + O) / U units, rounded up, and at least one. The limit is 1,024 units, or 512 where a request takes one
unit; a request above {LARGEST_SIZE:,} bytes has no pool, which is said.

Exit status:
  0  the pools are printed, or the checked ones are right, or all runs are served
  1  the checked pools are not, or a run is not served: the last line on standard error says why; or, without --check, nothing
     shows that no others take less
  2  the words or a file are refused, or a request has too many units
  3  there is no request, mte_tool could not run, or a write failed

Examples:
  scripts/pools --limit 4 --unit 8 --overhead 8 --certificate lwip.pools lwip.timeline
  scripts/pools --check lwip.pools lwip.timeline
  scripts/pools --serve lwip.pools other.timeline
  scripts/pools --read lwip.pools --as lwip --reserve 10 > lwippools.h
"""
WIDTH = 100
# options that take the pools of a file, and those that have a place beside each
OF_FILE = {
    "--check": ("--limit", "--unit", "--overhead"), "--read": ("--as", "--reserve", "--name"), "--serve": ("--reserve",)
}


def take_options(words: list[str]) -> argparse.Namespace:
    kinds: dict[str, Any] = {
        "limit": number_between(1, MOST_CLASSES), "unit": number_among(*pool_runs.UNITS), "today": parse_pools,
        "overhead": number_between(0, pool_runs.MOST_OVERHEAD), "reserve": number_between(0, 1000),
        "as_": name_among(*pool_forms.FORMS), "name": parse_name,
    }
    parser = Words(HELP, "runs", {"reserve": 0, "today": [], "name": "app"}, **kinds)
    options = parser.take(words)
    if wrong := options_refusal(options, parser.given(words)):
        raise Refusal(2, wrong)
    options.block = pool_runs.Block(options.unit or 8, options.overhead or 0)
    return options


def options_refusal(options: argparse.Namespace, given: list[str]) -> str:
    """What is wrong with options together; empty if nothing is."""
    for one, beside in OF_FILE.items():
        others = [other for other in given if other not in (one, *beside)]
        if one in given and others:
            return f"{one} takes the pools of a file: {others[0]} has no place beside it"
    if options.read is not None:
        if options.as_ is None or options.runs:
            return "--read prints the pools of a file by --as FORM, and reads no run: --check compares them with runs"
    elif not options.runs:
        return "name a timeline, or several; --help says more"
    elif options.check is None and options.serve is None and not options.units and options.limit is None:
        return "--limit K is wanted: at most how many pools?"
    if options.each and (options.as_ or options.certificate or options.today or options.reserve or options.units):
        return "--each prints what pools take, and no pools: it goes with --limit, --unit and --overhead alone"
    return "standard input can be read once" if options.runs.count("-") > 1 else ""


def parse_pools(value: str) -> list[Pool]:
    """The pools that there are today, by ascending blocks."""
    pools = []
    for word in value.split(","):
        match = re.fullmatch("([1-9][0-9]{0,6})x([0-9]{1,9})", word)
        if not match:
            raise argparse.ArgumentTypeError(f"takes pools as 128x156,256x592, and not {word}")
        pools.append(Pool(int(match[1]), int(match[2])))
    if len({pool.block for pool in pools}) < len(pools):
        raise argparse.ArgumentTypeError("takes a size of blocks once, and not twice")
    return sorted(pools)


def parse_name(value: str) -> str:
    if not re.fullmatch("[A-Za-z][A-Za-z0-9_]{0,40}", value):
        raise argparse.ArgumentTypeError(f"takes the begin of a name in C, and not {value}")
    return value


def main(words: list[str]) -> int:
    options = take_options(words)
    if options.read is not None:
        name = printable(text_files.input_name(options.read))
        said = f"{name} has their certificate, which `{shell_words.command_name('pools')} --check` checks."
        return write_form(options, pool_sets.read_pools(options.read), [said])
    if options.check is not None:
        return check_pools(options)
    if options.serve is not None:
        return serve_runs(options)
    text_files.refuse_over([("--certificate", options.certificate)], options.runs)
    runs = pool_runs.read_runs(options.runs)
    if options.units:
        return text_files.write(pool_runs.join_runs(pool_runs.order_runs(runs), options.block).text)
    if options.each:
        return try_numbers(options, runs)
    its = pool_sets.find_pools(runs, options.block, options.limit)
    if its.fit and options.certificate is not None:
        text_files.write_file(options.certificate, its.text())
    known, notes = check_sentence(runs, its), list(warnings(runs))
    if options.as_ is None:
        write_lines(summary_lines(options, runs, its, known, notes))
    else:
        write_form(options, its, [known, *notes])
        say_notes(notes)
    return 0 if its.fit else 1


def write_lines(lines: Iterable[str]) -> int:
    return text_files.write("".join(f"{line}\n" for line in lines))


def write_form(options: argparse.Namespace, its: PoolSet, said: list[str]) -> int:
    pools, said = its.with_reserve(options.reserve), [*said, *reserve_words(options, its)]
    return text_files.write(pool_forms.form_text(options.as_, options.name, its.block, pools, said))


def say_notes(notes: Iterable[str]) -> None:
    for note in notes:
        say("pools", note)


def check_sentence(runs: list, its: PoolSet) -> str:
    """What is known of the pools that were found."""
    found = pool_sets.judge_pools(its, runs) if its.fit else None
    if found and found.why:
        raise Refusal(3, f"the pools that were found are not those of their certificate: {found.why}")
    return its.sentence(its.claim, runs)


def try_numbers(options: argparse.Namespace, runs: list) -> int:
    """What the pools take for each limit from 1 to K, each found and checked by itself."""
    rows, its, known = [["At most", "Bytes"]], None, ""
    for limit in range(1, options.limit + 1):
        its = pool_sets.find_pools(runs, options.block, limit)
        known = check_sentence(runs, its)
        rows.append([number(limit), number(its.bytes)])
        if not its.fit:
            break
    so = claim_words.claim_sentence("pools.each.so") if its.fit and options.limit > 1 else ""
    write_lines([*text_layout.columns(rows, left=2), "", *wrap_text(f"{known} {so}"), *note_lines(warnings(runs))])
    return 0 if its.fit else 1


def check_pools(options: argparse.Namespace) -> int:
    """Whether the pools of a file are right for the runs."""
    its, name = pool_sets.read_pools(options.check), printable(options.check)
    runs = pool_runs.read_runs(options.runs)
    text_files.write(f"the pools are {len(its.pools)}, of {number(its.bytes)} bytes\n")
    found = pool_sets.judge_pools(its, runs)
    for option, value in {"limit": found.limit, **its.block._asdict()}.items():
        if getattr(options, option) not in (None, value):
            raise Refusal(1, f"{name} is for --{option} {value}, and not for --{option} {getattr(options, option)}")
    if found.why:
        raise Refusal(1, f"{name}: {found.why}")
    if found.order:
        say("pools", f"{name} is of the runs in another order, as an earlier release wrote it: {found.order}")
    say_notes(warnings(runs))
    return text_files.write(its.sentence(found.claim, runs) + "\n")


def serve_runs(options: argparse.Namespace) -> int:
    """Whether the pools of a file serve each of the runs."""
    its, name = pool_sets.read_pools(options.serve), printable(options.serve)
    pools, holds = its.with_reserve(options.reserve), its.holds()
    if holds != sorted(set(holds)) or holds[0] < 0:
        raise Refusal(2, f"{name}: the blocks of the pools do not ascend")
    needs = [pool_serving.need_of(run, holds) for run in pool_runs.read_runs(options.runs)]
    said = [line for need in needs for text in need.sentences(pools, holds[-1]) for line in wrap_text(text, "  ")]
    write_lines([*pool_serving.need_lines(pools, needs), "", *said])
    if short := [need.run.name for need in needs if not need.is_served(pools)]:
        raise Refusal(1, f"{name} does not serve {claim_words.join_words(short)}")
    return 0


def warnings(runs: list) -> "Iterator[str]":
    """Where the pools may not be enough."""
    for run in runs:
        if run.is_sampled:
            yield f"{run.name} is a history, which is sampled: what was live between its {run.snapshots} snapshots may have no block."
        if run.has_large:
            yield f"{run.name} has requests of more than {number(LARGEST_SIZE)} bytes, which have no pool."


def reserve_words(options: argparse.Namespace, its: PoolSet) -> list[str]:
    if not options.reserve:
        return []
    whole = pool_sets.bytes_of(its.with_reserve(options.reserve))
    return [f"With a reserve of {options.reserve}% they take {number(whole)} bytes, {number(whole - its.bytes)} more."]


def wrap_text(text: str, indent: str = "") -> list[str]:
    return text_layout.wrap_text(text, WIDTH, indent)


def note_lines(notes: Iterable[str]) -> list[str]:
    return [line for note in notes for line in wrap_text(f"! {note}", "  ")]


def summary_lines(options: argparse.Namespace, runs: list, its: PoolSet, known: str, notes: list[str]) -> list[str]:
    made = f"units of {its.block.unit} bytes, {its.block.overhead} of overhead in each block"
    made = f"Pools for {pool_sets.name_runs(runs)}, in {made}"
    lines = [*wrap_text(made, "  "), "", *pool_lines(options, runs, its), ""]
    if options.today:
        lines += [*today_lines(options, runs, its), ""]
    for text in (known, *reserve_words(options, its)):
        lines += wrap_text(text)
    return lines + note_lines(notes)


def pool_lines(options: argparse.Namespace, runs: list, its: PoolSet) -> list[str]:
    """The pools in columns, the last of which is the run that needs so many blocks."""
    most, short = [run.most(its.holds()) for run in runs], short_names(runs)
    more, reserve, needed = its.with_reserve(options.reserve), bool(options.reserve), len(runs) > 1
    rows = [["Block", "Holds", "Blocks", *["With reserve"] * reserve, "Bytes", *["Needed by"] * needed]]
    for pool, holds, own, counts in zip(its.pools, its.holds(), more, zip(*most)):
        names = [name for name, count in zip(short, counts) if count == pool.number]
        others = f" and {len(names) - 1} more" if len(names) > 1 else ""
        cells = [pool.block, holds, pool.number, *[own.number] * reserve, own.block * own.number]
        rows.append([*map(number, cells), *[f"{names[0]}{others}"] * needed])
    rows.append([*[""] * (3 + reserve), number(pool_sets.bytes_of(more)), *[""] * needed])
    return text_layout.columns(rows, left=4 + reserve)


def short_names(runs: list) -> list[str]:
    """The names of the files without their folders, where no two are the same."""
    names = [os.path.basename(run.name) for run in runs]
    return names if len(set(names)) == len(names) else [run.name for run in runs]


def today_lines(options: argparse.Namespace, runs: list, its: PoolSet) -> list[str]:
    """Today's pools: what they take, and how many of their blocks the runs use."""
    holds = [pool.block - its.block.overhead for pool in options.today]
    used = [max(counts) for counts in zip(*(run.most(holds) for run in runs))]
    total, own = pool_sets.bytes_of(options.today), its.bytes
    rows, short = [["Today", "Blocks", "Used", "Bytes"]], []
    for (block, blocks), most in zip(options.today, used):
        rows.append([*map(number, (block, blocks, most, block * blocks))])
        short += [f"{number(block)} by {number(most - blocks)}"] * (most > blocks)
    lines = text_layout.columns([*rows, ["", "", "", number(total)]], left=4)
    change = f"{number(abs(total - own))} bytes {'less' if own <= total else 'more'}"
    change += f", {percent(abs(total - own), total)}" if total else ""
    these = "Without their reserve the pools above" if options.reserve else "The pools above"
    lines += wrap_text(f"Today's pools take {number(total)} bytes. {these} take {change}.")
    above = [size for run in runs for size in run.sizes if size > holds[-1]]
    notes = [f"Today's pools are short of blocks: those of {claim_words.join_words(short)}."] if short else []
    notes += [f"Today's pools have no block for a request of {number(min(above))} bytes."] if above else []
    return [*lines, *note_lines(notes)]
