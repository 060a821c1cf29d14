"""Prints a class table as the chunk sizes that memcached takes. `memcached_sizes --help` says all."""

from mte_scripts import certificate_texts, text_files
from mte_scripts.entry_point import Refusal, say
from mte_scripts.formats import LARGEST_SIZE
from mte_scripts.words import Words, number_between

HELP = f"""Print the class table of a sheet as the chunk sizes of memcached: the value of its option `-o slab_sizes=`.

Usage: memcached_sizes [--memory MB] < SHEET        (a fit, or a line `classes C1 C2 ..` alone, will do)

The sheet is of a profile of items, as memcached_profile makes it. Class C holds 16 C - 16 bytes, so its chunk has as many. After
the tuned chunks come memcached's own above {LARGEST_SIZE:,} bytes; it adds the last itself, half of its page.

  --memory MB   memcached's option -m: says on standard error if it is small for so many classes. A class that is used takes at
                least a page of 1 MiB, even past -m

Exit status:
  0  the sizes are printed, on one line
  2  the words are refused, the first line is no class line, or memcached does not take its table
  3  standard output can't be written

Example:
  memcached -m 1024 -o slab_sizes=$(memcached_sizes --memory 1024 < app.sheet)
"""

# memcached's own chunks above LARGEST_SIZE, by its factor 1.25, but for the last
LARGER = [17352, 21696, 27120, 33904, 42384, 52984, 66232, 82792, 103496, 129376, 161720, 202152, 252696, 315872, 394840]
LEAST_CHUNK = 48  # memcached's default of its option -n; no item is as small
MOST_CHUNKS = 62  # that memcached takes by name
PAGES_A_CLASS = 4  # of 1 MiB; examples/memcached has the measurement


def chunk_sizes(words: list[str]) -> None:
    memory = Words(HELP, memory=number_between(1, 1_000_000_000)).take(words).memory
    text_files.say_reading("memcached_sizes", ", a sheet")
    classes = certificate_texts.class_line("-")
    rooms = [16 * number - 16 for number in classes]
    if not rooms:
        raise Refusal(2, "the table has no class: was the profile empty?")
    if rooms[0] < LEAST_CHUNK:
        raise Refusal(2, f"class {classes[0]} holds {rooms[0]} bytes, and memcached takes no chunk below "
                         f"{LEAST_CHUNK}: tune a profile of items, of memcached_profile")
    chunks = rooms + LARGER
    if len(chunks) > MOST_CHUNKS:
        raise Refusal(2, f"{len(rooms)} classes and memcached's {len(LARGER)} larger ones are more than {MOST_CHUNKS}: "
                         f"tune with `--limit {MOST_CHUNKS - len(LARGER)}`")
    if memory is not None and memory < PAGES_A_CLASS * len(rooms):
        say("memcached_sizes", f"warning: {memory} MB are few for {len(rooms)} classes, as each takes pages of 1 MiB of its own. "
                  f"Try `--limit {max(1, memory // PAGES_A_CLASS)}` too, and compare the hits")
    text_files.write("-".join(map(str, chunks)) + "\n")
