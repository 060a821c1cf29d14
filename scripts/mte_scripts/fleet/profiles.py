"""The profiles and histories in the rows of a fleet's database. `fleet_profiles --help` says all."""

import argparse
import functools
import re
import time

from mte_scripts import count_texts, text_files
from mte_scripts.entry_point import Refusal, say
from mte_scripts.fleet import caps, row_reader, rows
from mte_scripts.fleet.command_words import OPTIONS, take_options
from mte_scripts.fleet.suspicions import Suspicion, Suspicions
from mte_scripts.formats import LARGEST_SIZE, MOST_SNAPSHOTS

HELP = f"""\
Make profiles and histories of the rows of a fleet's database, each count times its weight; or rows of a profile or a history.

Usage: fleet_profiles [--by COLUMNS] [--program NAME] [--days FIRST..LAST] [--cap N] [--output FOLDER | --arrays]
                      [--suspects FILE] [ROWS..]
       fleet_profiles --rows PROGRAM,BUILD,MACHINE,DAY[,WEIGHT] [--load N] [PROFILE|HISTORY]
                                          (standard input for `-`, or where there is no file)

A row is a line of nine fields with tabs between:

  program build machine day   what was counted where: three names, and a day as 2026-01-31; these four are the key of a load.
                              Several containers on a machine have names as MACHINE/POD: of one name, one is dropped
  load                        its number: of all loads with one key the one with the greatest number counts, whatever came first
  weight                      for how many it stands, itself included: of one machine in n, or one request in n, it is n
  moment                      0 in a profile; in a history the number of the moment, from 1 to {MOST_SNAPSHOTS:,}
  size count                  as in a profile; {LARGEST_SIZE + 1} or `large` stands for all sizes above {LARGEST_SIZE:,}

A count times its weight is unbiased if chance alone chose who is counted, with one chance in n for each, whatever its load. A load may
come again, late or cut, in any file and order: of rows with one number all are of one load. A sum made by the database is a row too: of
a machine with any name, and the weight 1.

Earlier releases wrote rows without the load. Of these the load that stands last counts, if its rows are in the order in which they were
written; of rows in another order, the last of those that are equal but for their counts.

A row that can't count, as one of a day that does not exist, is left out. Standard error says of each suspicion how many rows have it.

  --by COLUMNS       a profile for each program,build or other columns of program, build, machine and day; program,day where it is
                     left out
  --program NAME     only the rows of this program
  --days FIRST..LAST
                     only the rows of these days
  --cap N            cut the counts of a machine with over N times the bytes of the median of its program and day at N
                     times the median of each size; where it is left out, only name those above {caps.MOST} times
  --output FOLDER    make a new folder, with a folder in it for each value of the columns but the last, and in that a file for each
                     value of the last one: FOLDER/redis/2026-01-31.profile, or .history of moments
  --arrays           print each load as one row, with its moments, sizes and counts as arrays: for PostgreSQL and ClickHouse, which read
                     two backslashes as one
  --suspects FILE    write the rows that can't count into FILE: why, the file and the line, with tabs between, and the row
  --rows KEY         print the rows of one profile or history for the database; the weight is 1 where it is left out
  --load N           the number of the load; the milliseconds since 1970 where it is left out

Without --output, all rows that are left are one profile, or one history, which is printed. The moments of machines are added up by
their numbers: they have to be taken at the same stages. fleet_regret and fleet_table take rows as they are, with each machine by
itself.

Exit status:
  0  the profiles, the histories or the rows are made
  2  the words are refused, or no row can count; nothing is made
  3  there is no row, or the output can't be made

Examples:
  fleet_profiles --rows redis,7.2,web-17,2026-01-31,100 app.profile >> rows.tsv
  fleet_profiles --output days rows.tsv
"""

UNSAFE = re.compile(r"[^A-Za-z0-9._+@=,-]")
LINES = 1000  # that are written at once


def parse_days(word: str) -> "tuple[str, str]":
    first, dots, last = word.partition("..")
    if not dots or not all(rows.DAY.fullmatch(day) for day in (first, last)) or first > last:
        raise argparse.ArgumentTypeError(f"takes a first and a last day as 2026-01-01..2026-01-31, and not {word}")
    return first, last


def parse_columns(word: str) -> list:
    chosen, every = word.split(","), rows.COLUMNS[:4]
    if len(set(chosen)) < len(chosen) or not set(chosen) <= set(every):
        raise argparse.ArgumentTypeError(f"takes columns of {', '.join(every)} with commas between, and not {word}")
    return chosen


def texts_of(records: list) -> list:
    """The profile and the history of records, each with its ending, as far as there are such."""
    histories = rows.histories_of(each.unpack() for each in records)
    found: dict = {".profile": rows.sum_profiles(each.unpack() for each in records)}
    found[".history"] = histories and rows.add_histories(histories)
    tell = functools.partial(say, "fleet_profiles")
    return [(ending, count_texts.fitting_text(counts, tell)) for ending, counts in found.items() if counts]


def name_of(value: str) -> str:
    """A value as the name of a file, with other characters than these as their numbers."""
    name = UNSAFE.sub(lambda match: "".join(f"%{byte:02X}" for byte in match[0].encode()), value)
    return name.replace(".", "%2E", 1) if name.startswith(".") else name


def write_folder(folder: str, groups: list) -> int:
    """A file for each group, where no file was before. All texts are made before the first is written."""
    made = [([*map(name_of, values)], ending, text) for values, records in groups for ending, text in texts_of(records)]
    with text_files.new_folder(folder, "--output") as place:
        for names, ending, text in made:
            place.make_below(names[:-1])
            place.write("/".join(names) + ending, text.encode(errors="surrogateescape"))
    return len(made)


def write_arrays(found: "list[tuple[rows.Key, row_reader.PackedLoad]]") -> int:
    """Each load as one row with arrays, in the order of the keys. The databases read a backslash as the begin of an escape."""
    lines: "list[str]" = []
    for key, load in sorted(found, key=lambda each: each[0]):
        parts = [(*cells_of(part.moment, part.sizes), part.counts.replace(b" ", b",").decode()) for part in load.parts]
        arrays = (f"[{','.join(column)}]" for column in zip(*parts))
        names = (name.replace("\\", r"\\") for name in key)
        lines.append("\t".join([*names, str(load.number), str(load.weight), *arrays]) + "\n")
        if len(lines) == LINES:
            text_files.write("".join(lines))
            lines.clear()
    return text_files.write("".join(lines))


@functools.lru_cache(256)
def cells_of(moment: int, sizes: bytes) -> "tuple[str, str]":
    """The elements of the arrays of moments and sizes."""
    found = row_reader.unpack_sizes(sizes)
    return ",".join([str(moment)] * len(found)), ",".join(map(str, found))


def write_rows(word: str, load: "int | None", files: list) -> int:
    """The rows of one profile or history."""
    key, weight = word.split(",")[:4], word.split(",")[4:]
    if len(key) < 4 or len(weight) > 1 or weight and not re.fullmatch("[0-9]{1,10}", weight[0]):
        form = "PROGRAM,BUILD,MACHINE,DAY and perhaps a weight, with commas between"
        raise Refusal(2, f"--rows takes {form}, and not {word}")
    if len(files) > 1:
        raise Refusal(2, f"--rows takes one profile or history, so there is no place for {files[1]}")
    found = count_texts.read_either(files[0])
    if isinstance(found, count_texts.History):
        moments = {at + 1: {size: counts[at] for size, counts in found.counts.items()} for at in range(found.snapshots)}
    else:
        moments = {0: found}
    number = int(time.time() * 1000) if load is None else load
    text = rows.text_of(rows.Key(*key), number, int(*weight or "1"), moments)
    if not text:
        raise Refusal(3, "there is no request to count")
    try:
        for line in text_files.lines_of(text.encode(errors="surrogateescape")):
            rows.parse_row(line, 0)
    except Suspicion as suspicion:
        raise Refusal(2, f"--rows: {suspicion.reason}: {suspicion.what}") from None
    return text_files.write(text)


def main(words: list) -> int:
    columns, days, cap = (parse_columns, ["program", "day"]), (parse_days, ("", "~")), (OPTIONS["cap"][0], None)
    given = take_options(words, HELP, rest="files", by=columns, days=days, cap=cap)
    files = given.files or ["-"]
    if not given.files:
        text_files.say_reading("fleet_profiles")
    if given.rows:
        return write_rows(given.rows, given.load, files)
    text_files.refuse_over([("--output", given.output), ("--suspects", given.suspects)], files)
    found, (first, last) = row_reader.read_rows(files, Suspicions(given.suspects)), given.days
    kept = [(key, load) for key, load in found.items() if given.program in (None, key.program) and first <= key.day <= last]
    capped = caps.cap_machines(kept, given.cap or caps.MOST)
    what = caps.cut_words(given.cap) if given.cap else f"--cap {caps.MOST} would cut its counts"
    capped.note_machines(what, found.suspicions)
    kept = capped.found if given.cap else kept
    found.suspicions.say_all("fleet_profiles")
    if not kept:
        raise Refusal(3, f"none of the {len(found.loads)} loads is of this program and these days")
    if given.arrays:
        return write_arrays(kept)
    if given.output:
        made = write_folder(given.output, rows.group_records(kept, given.by))
        say("fleet_profiles", f"{made} files in {given.output}")
        return 0
    whole = texts_of([load for _, load in kept])
    if len(whole) > 1:
        raise Refusal(2, "there are rows of profiles and of histories: --output makes a file of each")
    return text_files.write(whole[0][1])
