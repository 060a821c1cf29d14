"""The numbers of the formats and of the library's interface, and the codes with their words: the one table of them beside the proofs.

scripts/tests/test_formats.py compares it with the laws that the crates prove of their numbers, with the texts of the codes that contracts cite, and
with what the program and the documents say. It writes the options of crates/tool_call and command_words, and the parts of include/, library/,
python/, rust/, web/, scripts/tests/plain and scripts/shims that have numbers, sentences, options or a call for each command. Of the totals it writes
the fields, bounds and lines in the definitions and in the crates, their rows in FORMATS.md, and three texts with numbers that the plain program
counts: README.md's session, crates/mte_tool/stdout and TOTALS of crates/heap_tests. Last it writes how much `scripts/statement run` prints.
"""

import re
from typing import Iterable, NamedTuple, Optional

from mte_scripts import claim_words

# The version of all that this repository makes: the program, the library, its header and its packages.
VERSION = "1.0.0"
# that of the library's interface alone: of the name libmte_tool.so.N, and of the node MTE_TOOL_N of its symbols
INTERFACE = "1"

# sizes, in bytes but for those of classes, which are granules
GRANULE_BYTES = 16
SMALLEST_CLASS = 2
LARGEST_CLASS = 1024
LARGEST_SIZE = 16_368  # the largest request that a class serves; a larger one is `large`
MOST_INPUT = 67_108_864

# tables, profiles, histories and certificates
MOST_CLASSES = 32
LINE_BYTES = 168  # of a class line
MOST_COUNT = 1_000_000_000
MOST_SNAPSHOTS = 1024
MOST_NEEDS = 1023  # the most numbers of a row

# traces
MOST_EVENTS = 1_000_000
LONGEST_LINE = 80
LAST_VARIABLE = 1023
LARGEST_REQUEST = 2_147_483_647
FARTHEST_ACCESS = 1_048_576
LONGEST_ACCESS = 64
FARTHEST_MOVE = 63
LARGEST_TAG_STEP = 15

# the heap and its machine
FEWEST_GRANULES = 64
MOST_GRANULES = 262_144
MOST_QUARANTINE = 4_194_304
REGION_START = 1 << 36

NUMBERS = {name: value for name, value in list(globals().items()) if name.isupper() and isinstance(value, int)}


class Option(NamedTuple):
    """An option of the commands: its range, its default (a limit has none, and has to be given), the bits that its number has in the proved
    functions' structure, what it is, the letter of its number and what it is in the help, its values where these are not all of the range,
    and whether the program alone has it: the library's calls take two texts apart, and give a claim as numbers."""

    least: int
    most: int
    default: Optional[int]
    bits: int
    words: str
    letter: str
    help: str
    values: str = ""
    is_of_program: bool = False

    def described(self) -> str:
        """What it is, with its values."""
        return self.with_values(self.words)

    def with_values(self, words: str) -> str:
        """Words with its values."""
        return f"{words}: {self.values}" if self.values else f"{words}, {self.least} to {self.most}"


# in the order of mte_tool_options, in which a new one of the library is the last
OPTIONS = {
    "granules": Option(FEWEST_GRANULES, MOST_GRANULES, 65_536, 32, "the granules of the heap", "R", "The granules of the heap's region"),
    "quarantine": Option(0, MOST_QUARANTINE, 65_536, 32, "the bytes of freed blocks that the heap holds back",
                         "Q", "Bytes of freed blocks held back from reuse"),
    "seed": Option(1, 65_535, 1, 16, "the seed of the random tags", "N", "What the random tags begin with"),
    "limit": Option(1, MOST_CLASSES, None, 8, "the most classes of the table", "K", "The most classes that the table may have"),
    "step": Option(1, 8, 1, 8, "the granules that each class is a multiple of", "S", "Each class is a multiple of S granules", "1, 2, 4 or 8"),
    "largest_class": Option(0, 1, 0, 8, f"whether the table must have class {LARGEST_CLASS}",
                            "L", f"Whether the table must have class {LARGEST_CLASS}", "0 or 1"),
    "claim": Option(0, 1, 0, 8, "whether a line of what was shown follows `optimal`",
                    "C", "Whether a line of what was shown follows `optimal`", "0 or 1", is_of_program=True),
    "first_lines": Option(0, 64, 0, 8, "of one text that is two: the lines of the first; by their form for 0",
                          "N", "The lines of the first text; by its form for 0", is_of_program=True),
}

LIBRARY_OPTIONS = {name: it for name, it in OPTIONS.items() if not it.is_of_program}

# the help lists these first, and then the others as they stand above
FIRST_IN_HELP = ("limit", "step", "largest_class", "granules", "seed")


def in_help(names: "Iterable[str]") -> "list[str]":
    """Options in the order of the help."""
    return sorted(names, key=[*FIRST_IN_HELP, *(name for name in OPTIONS if name not in FIRST_IN_HELP)].index)


class Command(NamedTuple):
    """A command: the texts that it reads, one after the other, its options, and what a call of the library gives: "cost", "text", "verdict"
    or "fit", with that in words."""

    inputs: "tuple[str, ...]"
    options: "tuple[str, ...]"
    gives: str
    words: str

    @property
    def library_options(self) -> "list[str]":
        """Those of its options that the library has."""
        return [option for option in self.options if option in LIBRARY_OPTIONS]


LIMITS = ("limit", "step")
TUNER = (*LIMITS, "largest_class")
HEAP = ("granules", "quarantine", "seed")
BORDER = ("first_lines",)  # of the commands that read a first text and then counts
CHECKER = ("claim", *BORDER)

# in the order of their numbers in C
COMMANDS = {
    "score": Command(("classes", "profile"), BORDER, "cost", "What the table of a class line, such as `classes 2 8`, wastes on a profile"),
    "tune": Command(("profile",), TUNER, "text", claim_words.GIVEN["tune"]),
    "check": Command(("sheet", "profile"), CHECKER, "verdict", claim_words.GIVEN["check"]),
    "footprint": Command(("classes", "history"), BORDER, "cost", "What the table of a class line takes of memory over a history or a timeline"),
    "fit": Command(("history",), TUNER, "fit", claim_words.GIVEN["fit"]),
    "check_fit": Command(("fit", "history"), CHECKER, "verdict", claim_words.GIVEN["check_fit"]),
    "profile": Command(("trace",), (), "text", "The profile of a trace"),
    "replay": Command(("classes", "trace"), HEAP, "text", "The report of the tagged heap over the table of a class line on a trace"),
    "run": Command(("trace",), (*LIMITS, *HEAP), "text", "The sheet of a trace's profile, and then the report with its table"),
    "peaks": Command(("classes", "timeline"), BORDER, "text", "The most live blocks of each class of a class line over a timeline, and when"),
}


class Total(NamedTuple):
    """A total of a replay: what it counts, in words, and the test of an event's result that says so, or its definition over what happened."""

    words: str
    test: str = ""
    value: str = ""


# by their names in the last lines of a report
TOTALS = {
    "events": Total("all events", value="length happened"),
    "requests": Total("the requests, whatever their results", value="count_by (λ p. is_request p.0) happened"),
    "null large": Total("the requests that were refused because they ask for more than any class serves", "is_large"),
    "null no-class": Total("the requests that were refused because no class serves them", "is_no_class"),
    "null exhausted": Total("the requests that were refused because their class had no slot left", "is_exhausted"),
    "faults tag": Total("the mapped accesses that touched a granule whose tag differs from their pointer's", "is_tag_fault"),
    "faults unmapped": Total("the accesses that were not mapped", "is_unmapped"),
    "refused frees": Total("the frees and reallocs of a pointer that is not null and names no live chunk", "is_refused"),
    "loss": Total("the bytes that requests left unused in blocks of their classes, over all requests that were not refused",
                  value="sum_by (loss_of_event classes) happened"),
}


def in_code(total: str) -> str:
    """A total's name in code, as null_no_class."""
    return re.sub("[ -]", "_", total)


class End(NamedTuple):
    """How a call of the library ends: the sentence, and what it leaves."""

    sentence: str
    leaves: str


# from 0 on
ENDS = {
    "DONE": End("done", "the output is the answer"),
    "NO": End("the verdict is no", "the output is the answer"),
    "REFUSED": End("the input is refused", 'the output is its first fault, as "30 BadLine line 2", without a newline'),
    "OUT_OF_MEMORY": End("memory ran out", "the output is empty"),
    "BAD_OPTION": End("an option is out of its range, or not known to this library", "the output is empty"),
    "MISUSE": End("the call is not as it has to be", "a pointer is null that must not be, a structure has no size, or as the call says"),
}


class Code(NamedTuple):
    """A code's name, the exit status of the program that ends with it (None where it does not), and its words in the help, on the page
    and in the header."""

    name: str
    status: Optional[int]
    words: Optional[str]


CODES = {
    1: Code("OutOfMemory", 3, "the allocator refused memory"),
    # a class line
    20: Code("TooMany", 2, f"there are more than {MOST_CLASSES} classes"),
    21: Code("OutOfRange", 2, f"a class is not from {SMALLEST_CLASS} to {LARGEST_CLASS}"),
    22: Code("NotAscending", 2, "a class is not above the one before it"),
    23: Code("BadLine", 2, "the class line is not `classes` and then numbers"),
    # a profile or a history, 33 of a profile in the library alone
    30: Code("BadLine", 2, f"a line is not a size up to {LARGEST_SIZE}, or `large`, and then counts"),
    31: Code("NotAscending", 2, "a size is not above the one before it"),
    32: Code("CountOutOfRange", 2, f"a count is above {MOST_COUNT}, or all of a line are 0"),
    33: Code("CountFull", None, f"the count is {MOST_COUNT}, and no request more is counted"),
    34: Code("BadSnapshots", 2, f"the history's first line is not `snapshots T`, T from 1 to {MOST_SNAPSHOTS}"),
    35: Code("WrongLength", 2, "a line does not have T numbers, one for each snapshot"),
    # a timeline, and the verdict no on a fit over one
    37: Code("BadTimeline", 2, "a line of the timeline is none of its four forms"),
    38: Code("NotLive", 2, "a free of a size of which no block is live"),
    53: Code("NotMoments", 1, "no number of `moments` is above the number of events"),
    # a fit, a sheet
    36: Code("BadFit", 2, "a line is not of a fit's form, or is missing"),
    48: Code("BadSheet", 2, "a line is not of a sheet's form, or is missing"),
    # the verdict no of `check` and `check-fit`: what they ask
    39: Code("OffStep", 1, "each class is a multiple of the step"),
    40: Code("OverLimit", 1, "the table has at most K classes"),
    41: Code("NotServing", 1, "each counted size has a class"),
    42: Code("WasteWrong", 1, "the waste is the table's on the profile"),
    49: Code("FootprintWrong", 1, "the footprint is the table's over the history"),
    43: Code("Shape", 1, "there are K rows, with a number for each distinct need"),
    44: Code("LastClass", 1, None),  # 44 to 47: in the help each in the words of its command
    45: Code("StageDrop", 1, None),
    46: Code("Edge", 1, None),
    47: Code("NotTight", 1, None),
    # the machine and the heap
    50: Code("Unmapped", None, "a byte is not in the region, or one of the bits 60 to 63 of the address is 1"),
    51: Code("Alignment", None, None),  # of an instruction that no trace has
    52: Code("TagCheck", None, "a granule's tag differs from the address's"),
    60: Code("Large", None, f"more than {LARGEST_SIZE} bytes are requested"),
    61: Code("NoClass", None, "no class of the table serves the request"),
    62: Code("Exhausted", None, "no slot of the request's class is left"),
    63: Code("Misplaced", None, "no chunk of a slot begins at the address"),
    64: Code("NotLive", None, "the chunk there is not live"),
    65: Code("WrongTag", None, "the address has another tag than the chunk"),
    # a trace
    70: Code("BadWord", 2, "a line is no event, or has a word too many or too few"),
    71: Code("BadNumber", 2, "a word is no number of its kind, or not in its one spelling"),
    72: Code("OutOfRange", 2, "a number is not in its range"),
    73: Code("LineTooLong", 2, f"a line has more than {LONGEST_LINE} bytes"),
    74: Code("TooManyEvents", 2, f"there is a line after {MOST_EVENTS} events"),
    # any input, the streams, the options
    80: Code("InputTooLong", 2, f"there are more than {MOST_INPUT} bytes"),
    81: Code("ReadFault", 3, "a read failed"),
    82: Code("WriteFault", 3, "a write failed, or took no byte"),
    83: Code("BadOption", 2, "the step is 3, 5, 6 or 7; nothing is read then"),
}

# of the codes that have no words of their own above
SENTENCES = {
    44: "a number of the first row is above the cost of one class on all that comes after its place",
    45: "a number is above the one at its place in the row before",
    46: "a number is above the cost of one class up to a later place, and the number there in the row before",
    47: "the first number of the last row is not the cost of the table",
    51: "an address is not aligned",
}


# the names of codes that say in an enumeration what they are of: two codes have one name, but for 20
OWN_NAMES = {20: "TooManyClasses", 21: "ClassOutOfRange", 22: "ClassesNotAscending", 23: "BadClassLine", 30: "BadCountLine",
             31: "SizesNotAscending", 38: "SizeNotLive", 64: "ChunkNotLive", 72: "NumberOutOfRange"}

# those of the library, in the order of their numbers: 1 is an end there
LIBRARY_CODES = sorted(code for code in CODES if code >= 20)


def own_name(code: int) -> str:
    """The name of a code in an enumeration, as BadClassLine."""
    return OWN_NAMES.get(code, CODES[code].name)


def upper_name(code: int) -> str:
    """The same in C and in Python, as BAD_CLASS_LINE."""
    return re.sub("(?<=[a-z])(?=[A-Z])", "_", own_name(code)).upper()


def code_sentence(number: int) -> str:
    """What mte_tool_code_sentence says of a code of the library."""
    code = CODES[number]
    if code.words is None:
        return SENTENCES[number]
    return f"this is not so: {code.words}" if code.status == 1 else code.words
