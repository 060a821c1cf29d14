"""The words of what is said of tables: TEMPLATES, which claims.py fills from what the engine said, and GENERAL and GIVEN, of what an engine does
whatever it is given. Each names the limit, the step and the class that may be forced.

No other text that a script, the page, the library or the package prints has the words proved, optimal, best, least, none or `no table` of a
table: scripts/tests/test_claims.py searches the sources for them, and scripts/tests/test_sentences.py what is printed.

TEMPLATES is a flat dictionary from a name to a text with places like {limit}, plain enough for JSON, so that the page's script has the same
words. KIND is profile, history or timeline; these are filled from the engine's line `claim ..`:

  {limit}     limit.one where the limit is 1, else limit.many; its {count} is the limit, its {block} is 16 * step
  {tables}    its {given} is what was counted, its {having} is `having` with the forced class, or empty
  {claim}     KIND.claim, with the counted numbers as "97 sizes"; {cost} is the waste or the footprint: "1 byte", "63,311 bytes". Its {large} is
              `large`, or empty
  {given}     `input`: the name of what was counted, quoted, the digest of its text, and {how} that came of what has this name, or nothing
  says        the verdict is `optimal`: `says`, with {command} `check` or `check-fit`
              another: `refused`, with the {verdict} and its {meaning}, which is refusal.CODE
              of a timeline whose `fit` found no certificate: `between`, whose {claim} has the bound that `fit` proves as its cost
  sentence    of a proved program known.proved, else known.unproved with {why}; of a verdict that is refused, says"""

import os
from collections.abc import Iterable

from mte_scripts import html_safe

GRANULE = 16  # bytes
# Around what comes from here, where a test asks for it: it finds what does not.
MARKS = ("\u27e6", "\u27e7") if os.environ.get("MTE_MARK_CLAIMS") else ("", "")

# What a call of the library gives by these commands; those of `tune` and `fit` go on with their options.
GIVEN = {
    "tune": "The sheet of the table of least waste on a profile",
    "check": "Whether a sheet shows that no table of its limit, step and forced class wastes less on a profile",
    "fit": "The fit of the table of least footprint over a history or a timeline",
    "check_fit": "Whether a fit shows that no table of its limit, step and forced class takes less over a history or a timeline",
}

# of what a script does, in its help
GENERAL = {
    "pools": "What is proved: for the requests in units, `mte_tool check-fit` says `optimal` only where, of the tables of at most K classes, all\n"
    "multiples of the fit's step, that serve them, none takes less over every moment. No class is forced. What is tested against all\n"
    "pools of small runs, and not proved: that a request of so many bytes takes so many units, and that such a table is pools with as\n"
    "many blocks as are live at most.",
    "allocators": "What is proved: for the requests in numbers, `mte_tool check-fit` says `optimal` only where, of the tables of at most K\n"
    "classes, all multiples of the fit's step, that serve them, none takes less. No class is forced. What is tested against\n"
    "all tables of small records, and not proved: that classes are block sizes at their costs. An allocator with more than 32\n"
    "sizes is fitted in parts; of how many sizes each has nothing is shown.",
    "fleet": "The last sentence has what\nbounds the worst of every table of at most K classes, multiples of S granules, with class 1024 but "
    "for --no-largest, by a certificate;\nwhere that is the worst of this one, none of these has a lower one.",
}

TEMPLATES = {
    "limit.one": "at most 1 class, a multiple of {block} bytes",
    "limit.many": "at most {count} classes, all multiples of {block} bytes",
    "tables": "the tables of {limit}, that serve {given}{having}",
    "having": " and have class {forced}",
    "input": "{name} (SHA-256 {digest}{how})",
    "how.divided": ", of counts divided by {divisor} and rounded up",
    "how.merged": ", as merge_profiles prints it",
    "how.bound": ", of counts that bound those of it",
    "how.units": ", in units of {unit} bytes",
    "how.capped": ", with the counts of {machines} cut at {most} times the median of each size",
    "how.retabled": ", in numbers for {allocator}",
    "how.changed": ", but for the requests of one place and size",
    "profile.claim": "of {tables}, none wastes less on its {requests} of {sizes}, {bytes} in all{large}, than {cost}.",
    "history.claim": "of {tables}, none takes less over its {snapshots} than {cost}.",
    "timeline.claim": "of {tables}, none takes less over all moments of its {events} than {cost}.",
    "large": " without {large}",
    "says": "`{command}` says `optimal`, so {claim}",
    "between": "`fit` found no certificate: the table takes {cost} over all moments; {claim}",
    "refused": "`{command}` says `{verdict}`: nothing is shown of this table for {given}. {meaning}",
    "known.proved": "{by}: {says}",
    "known.unproved": "Nothing is proved, since {why}. If its `{command}` is right, {claim}",
    # the last line of a script that checks one sheet
    "answer.proved": "optimal: {claim}",
    "answer.project": "optimal ({by}): {claim}",
    "answer.unproved": "optimal, but nothing is proved, since {why}: {claim}",
    # {sheet}, {counts} and {costs} are sheet, profile and wastes, or fit, history or timeline, and takes
    "refusal.39": "A class is no multiple of the {sheet}'s step.",
    "refusal.40": "The table has more classes than the {sheet}'s limit.",
    "refusal.41": "A size of the {counts} has no class: the {sheet} is of another {counts}.",
    "refusal.42": "The table does not waste what the sheet says: the sheet is of another profile, or one of the two was changed.",
    "refusal.43": "The rows do not fit the {counts}: the {sheet} is of another {counts}, or a part of it is missing.",
    "refusal.44": "Row 1 claims more than one class {costs}: the {sheet} is of another {counts}, or was changed.",
    "refusal.45": "A row claims more than the row before it: the {sheet} was changed.",
    "refusal.46": "A row claims more than the row before it allows: the {sheet} is of another {counts}, or was changed.",
    "refusal.47": "The rows do not reach what the table {costs}: they leave room for another one.",
    "refusal.49": "The table does not take what the fit says: the fit is of another {counts}, or one of the two was changed.",
    "refusal.53": "A moment of the fit is after the last event: the fit is of another {counts}.",
    # of a run of which a history has moments: {over} is interval.events or interval.run, {low} is rounded down and {high} up
    "interval.events": "all {events} of the run of {name}",
    "interval.run": "the whole run of {name}",
    "interval.one": "Over {over}, of the tables of {limit}, that serve it{having}, none takes less than {low}; this one takes at most {high}.",
    "interval.rests": "The moments are the run's own, so over {over} none of these tables takes less either; the first one takes at most {high} "
    "there. That rests on the recorder, which is tested and not proved.",
    # of a place in the source, had it requested fewer bytes: two fits, and {saved} of one and the other
    "who.one": "{place} requests {size}, {count} live at the peak of their class, in blocks of {block} bytes; {fewer} fewer and the table of a "
    "new fit takes {saved} less.",
    "who.none": "{place} requests {size}, {count} live at the peak of their class, in blocks of {block} bytes; {fewer} fewer and the table of a "
    "new fit takes no less.",
    "who.unjudged": "{place} requests {size}, {count} live at the peak of their class, in blocks of {block} bytes; of {fewer} fewer nothing is "
    "said, since a fit has no certificate.",
    "who.input": "Each of these is of two fits: of {given}, and of the same run with the requests of that place and size changed. `check-fit` "
    "says `optimal` of both, so of the tables of {limit}, that serve what is counted{having}, none takes less than these two. It holds where the "
    "program then requests the same otherwise.",
    # of a fleet: counts that bound those of a load, {load}, and a table that is none of those: {percent} is rounded up
    "bound.profile": "{known} Tested, and not proved: these are the counts of {load}, divided by {divisor} and rounded down; so on {load} none of "
    "these wastes less than {cost}.",
    "bound.histories": "{known} Tested, and not proved: over these moments, times {divisor}, no table takes more than over the machines of {load} "
    "together; so over them none of these takes less than {cost}.",
    "regret.profile": "{table} wastes {cost}; its blocks, with headers and requests, are at most {percent}% above that.",
    "regret.history": "{table} takes {cost}, at most {percent}% above that.",
    "regret.below": "{table} costs less, {cost}: it is none of these.",
    "regret.unserved": "{table} does not serve {size}, which {load} has.",
    # a table for several loads, {loads}, by the worst of its percentages there; {percent} is rounded down
    "worst.all": "{known} Tested, and not proved: no table costs more by these counts than by those of {loads}, each times a number, added up and "
    "divided; so none of these tables stays below {percent}% above the bounds on all of them. {own}",
    "worst.exact": "That is the worst of this table.",
    "worst.chosen": "This table was chosen among candidates, and its worst is {percent}%: another one may stay below that.",
    # pools: {what} is pools.runs or pools.snapshots, and {pools} is "1 pool" or "4 pools"
    "pools.claim": "of the sets of at most {pools} that serve {what}, with blocks of a multiple of {unit} bytes of which {overhead} hold no "
    "request, none takes less than {cost}.",
    "pools.runs": "{given} at every moment",
    "pools.snapshots": "the snapshots of {given}",
    "pools.all": "{known} Tested, and not proved: a request takes so many units; so {claim}",
    "pools.each.so": "The same holds of each number above, with its own limit.",
    # block sizes of an allocator: {over} is allocator.KIND
    "allocator.claim": "of the tables of at most {sizes} of {allocator}, from {first} to {top} bytes, its own or multiples of {unit}, {kept} among "
    "them, that serve {over}, none takes less than {cost}.",
    "allocator.timeline": "every moment of {given}",
    "allocator.history": "the snapshots of {given}",
    "allocator.profile": "{given}",
    "allocator.all": "{known} Tested, and not proved: {words}, and a request gets the smallest that holds it; so {claim}",
    "allocator.shared": "How many sizes are up to {ends} bytes, and how many above, was chosen: of other numbers nothing is shown.",
    # of a program that is not known to be proved
    "program.other": "MTE_TOOL names another program, {path}: nothing is proved of what it answers",
    "picture.unproved": "not proved: {why}",
    # what a table is called that the engine calls so, and another: of whom it is
    "profile.table": "least waste",
    "history.table": "least footprint",
    "timeline.table": "least footprint",
    "profile.other": "the sheet",
    "history.other": "the fit",
    "timeline.other": "the fit",
    # the curve over the number of classes: the rows of a sheet by `tune`, or of a fit by `fit`; {having} is that of the tables
    "profile.curve": "By `tune`, the line is the least waste on {name} of the tables of at most so many classes, all multiples of {block} bytes, "
    "that serve it{having}.",
    "history.curve": "By `fit`, the line is the least footprint over {name} of the tables of at most so many classes, all multiples of {block} "
    "bytes, that serve it{having}.",
    "timeline.curve": "By `fit`, the line is the least footprint at some moments of {name}, of the tables of at most so many classes, "
    "all multiples of {block} bytes, that serve it{having}; over all its moments none of these takes less.",
}


def fill_template(name: str, /, **places: object) -> str:
    """A template with its places, for a place of another one."""
    return TEMPLATES[name].format(**places)


def mark_claim(text: str) -> str:
    """What is handed out."""
    return f"{MARKS[0]}{text}{MARKS[1]}" if text else text


def general_sentence(name: str) -> str:
    """What a script does in general, for its help."""
    return mark_claim(GENERAL[name])


def claim_sentence(name: str, /, **places: object) -> str:
    """A template with its places, as it is shown."""
    return mark_claim(fill_template(name, **places))


def count_text(count: int, noun: str) -> str:
    return f"{count:,} {noun}{'' if count == 1 else 's'}"


def byte_text(count: int) -> str:
    return count_text(count, "byte")


def class_text(count: int) -> str:
    return f"{count} class{'' if count == 1 else 'es'}"


def join_words(words: Iterable) -> str:
    """1, 2 and 3."""
    *before, last = map(str, words)
    return f"{', '.join(before)} and {last}" if before else last


def quote_name(name: str) -> str:
    """A name from outside as text in a sentence, which it can't end or go on with."""
    plain = "".join(f"\\x{ord(c):02x}" if c in '\\"`' else c if c.isprintable() else html_safe.escape_of(c) for c in name)
    return f'"{plain}"'


def how(name: str, /, **places: object) -> str:
    """How the text of an input came of what has its name."""
    return fill_template(f"how.{name}", **places)


def divisor_words(divisor: int) -> str:
    return how("divided", divisor=f"{divisor:,}") if divisor > 1 else ""


def capped_words(number: int, most: int) -> str:
    return how("capped", machines=count_text(number, "machine"), most=f"{most:,}") if number else ""


def limit_words(limit: int, step: int) -> str:
    return fill_template("limit.one" if limit == 1 else "limit.many", count=limit, block=GRANULE * step)


def having_words(forced: int) -> str:
    return fill_template("having", forced=forced) if forced else ""


def mebibytes(count: int, up: int) -> str:
    """So many bytes in MiB, rounded down, or up where UP is 1: as exactly as tells an interval of a hundredth."""
    digits = 1 if count >= 16 << 20 else 3
    tens: int = 10**digits
    rounded = (count * tens + ((1 << 20) - 1) * up) >> 20
    return f"{rounded // tens:,}.{rounded % tens:0{digits}} MiB"
