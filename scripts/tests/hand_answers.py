"""Answers that were worked out by hand, from FORMATS, HEAP, MACHINE and CERTIFICATES: the input, the status, what is
printed, what is said on standard error, and the words. `*` ends a text of which the rest is not looked at."""

from report_totals import report

TABLE = SCORED = "classes 4\n16 3\n40 1\n"
PROFILE = "16 1\n32 1\n48 1\n"
SHEET = "classes 2 4\nlimit 2\nwaste 16\nrow 48 16 0\nrow 16 0 0\n"
# three blocks of 16 bytes are live at first, then one of 40
HISTORY = "snapshots 2\n16 3 0\n40 0 1\n"
FIT = "classes 2 4\nlimit 2\nfootprint 160\nrow 192 64\nrow 160 64\n"
TRACE = "malloc 1 16\nstore 1 16 1 aa\nmalloc 2 0\nload 1 32 1\nfree 1\nload 1 0 1\n"
REPORTED = """2 fault tag granule 2 memory 0 pointer 1 in header
4 fault tag granule 3 memory 2 pointer 1 in other
6 fault tag granule 1 memory 3 pointer 1 in dead
"""
REPORT = report([2], TRACE, REPORTED)
SMALL = "--granules 64 --seed 1 --quarantine 64"
# a block of 32 bytes is freed and then asked for again
FREED = "classes 2\nmalloc 1 16\nfree 1\nmalloc 2 16\nload 1 0 1\n"
THREE = "malloc 1 496\nmalloc 2 496\nmalloc 3 496\n"  # blocks of 32 granules

# what a command prints, or begins with where `*` ends it, and on standard error
ANSWERS = (
    (TABLE, 0, "waste 104\n", "", "score"),
    ("classes 2\n17 1\n", 1, "not serving 17\n", "", "score"),
    (PROFILE, 0, SHEET, "", "tune --limit 2"),
    (PROFILE, 0, "classes 4\nlimit 2\nstep 4\nwaste 48\nrow 48\nrow 48\n", "", "tune --limit 2 --step 4"),
    (PROFILE, 0, "classes 2 4\nlimit 4\nstep 2\nwaste 16\nrow 48 16\nrow 16 16\nrow 16 16\nrow 16 16\n", "", "tune --step=2 --limit=4"),
    (SHEET + PROFILE, 0, "optimal\n", "", "check"),
    (SHEET.replace("16", "15", 1) + PROFILE, 1, "refused 42 WasteWrong\n", "", "check"),
    ("classes 4\n" + HISTORY, 0, "footprint 192\n", "", "footprint"),
    ("classes 2\n" + HISTORY, 1, "not serving 40\n", "", "footprint"),
    (HISTORY, 0, FIT, "", "fit --limit 2"),
    (HISTORY, 0, "classes 4\nlimit 2\nstep 4\nfootprint 192\nrow 192\nrow 192\n", "", "fit --step 4 --limit 2"),
    (FIT + HISTORY, 0, "optimal\n", "", "check-fit"),
    (FIT.replace("160", "159", 1) + HISTORY, 1, "refused 49 FootprintWrong\n", "", "check-fit"),
    (PROFILE, 2, "", "error 34 BadSnapshots line 1\n", "fit --limit 2"),
    (SHEET + HISTORY, 2, "", "error 36 BadFit line 3\n", "check-fit"),
    (FIT + PROFILE, 2, "", "error 34 BadSnapshots line 6\n", "check-fit"),
    (TRACE, 0, "0 1\n16 1\n", "", "profile"),
    ("classes 2\n" + TRACE, 0, REPORT, "", f"replay {SMALL}"),
    (TRACE, 0, "classes 2\nlimit 2\nwaste 16\nrow 16\nrow 16\n" + REPORT, "", f"run --limit 2 {SMALL}"),
    (TRACE, 2, "", "error 83 BadOption\n", "run --limit 2 --step 5"),
    ("malloc 1\n", 2, "", "error 70 BadWord line 1\n", "profile"),
    ("classes 2\nmalloc 1024 1\n", 2, "", "error 72 OutOfRange line 2\n", "replay"),
    # the form of the input is the command's own
    (PROFILE, 2, "", "error 23 BadLine line 1\n", "score"),
    (SHEET + PROFILE, 2, "", "error 30 BadLine line 2\n", "score"),
    (SCORED, 2, "", "error 30 BadLine line 1\n", "tune --limit 1"),
    (SHEET + PROFILE, 2, "", "error 30 BadLine line 1\n", "tune --limit 1"),
    (SCORED, 2, "", "error 48 BadSheet line 2\n", "check"),
    (PROFILE, 2, "", "error 48 BadSheet line 1\n", "check"),
    ("classes 2\nlimit 1\nwaste 0\nrow 0\n17 1\n", 1, "refused 41 NotServing\n", "", "check"),
    # each option has its meaning
    (PROFILE, 0, "classes 2 4\nlimit 2\nwaste 16\n*", "", "tune --limit 2 --step 1"),
    (PROFILE, 0, "classes 4\nlimit 2\nstep 4\n*", "", "tune --step 4 --limit 2"),
    (PROFILE, 0, "classes 8\nlimit 1\nstep 8\n*", "", "tune --limit 1 --step 8"),
    (PROFILE, 0, "classes 2 3 4\nlimit 32\nwaste 0\n*", "", "tune --limit 32"),
    ("malloc 1 16\n", 0, "classes 8\nlimit 1\nstep 8\n*", "", "run --limit 1 --step 8"),
    # a fault of each kind
    ("classes 1\n", 2, "", "error 21 OutOfRange line 1\n", "score"),
    ("classes 4\n40 1\n16 3\n", 2, "", "error 31 NotAscending line 3\n", "score"),
    ("classes 4\n", 2, "", "error 48 BadSheet line 2\n", "check"),
)
# how a line of the report ends
LINES = (
    # a block that is freed is given out again if the quarantine holds less
    (FREED, " in dead", "replay"), (FREED, " in other", "replay --quarantine 31"), (FREED, " in dead", "replay --quarantine 32"),
    ("classes 32\n" + THREE, "null exhausted 0", "replay"),
    ("classes 32\n" + THREE, "3 null exhausted", "replay --granules 95"),
    ("classes 32\n" + THREE, "null exhausted 0", "replay --granules 96"),
    (THREE, "3 null exhausted", "run --limit 1 --granules 95"),
    (THREE, "null exhausted 0", "run --limit 1 --granules 96"),
    (THREE, "496 3", "profile"),
)

# ---- borders: each row stands for a definition, and its answer changes with it (scripts/plants --definitions)

# the example of CERTIFICATES: three requests of 16 bytes and one of 40, which need 2 and 4 granules
FOUR = "16 3\n40 1\n"
FOUR_TABLE = "classes 2 4\nlimit 2\nwaste 8\n"
FOUR_SHEET = FOUR_TABLE + "row 104 8\nrow 8 8\n"
FIT_TABLE = "classes 2 4\nlimit 2\nfootprint 160\n"
NONE_SHEET = "classes\nlimit 1\nwaste 0\n"  # of the profile that counts nothing
NONE_FIT = "classes\nlimit 1\nfootprint 0\nrow\n"
# the largest size is live from the second event on, where both blocks are in class 4: 2 of 64 bytes
TWO = "timeline\n16\n40\n"
TWO_FIT = "classes 4\nlimit 1\nfootprint 128\nrow 128 64\nmoments {}\n"
# the history of FORMATS
THREE_SNAPSHOTS = "snapshots 3\n16 4 0 1\n40 2 3 0\nlarge 0 1 0\n"
# one block of 40 at the first moment, where the second one is in the way
LATER = "timeline\n40\n16\n-40\n40\n"


def total_lines(*numbers: int) -> str:
    """The lines of totals with these numbers: events, requests, large, no class, exhausted, tag faults, unmapped, refused frees, loss."""
    names = "events|requests|null large|null no-class|null exhausted|faults tag|faults unmapped|refused frees|loss".split("|")
    return "".join(f"{name} {number}\n" for name, number in zip(names, numbers))


def numbers(first: int, last: int) -> str:
    return " ".join(map(str, range(first, last + 1)))


SIZES = (
    ("classes 1024\n16368 1\n", 0, "waste 0\n", "", "score"),
    ("classes 1024\n16369 1\n", 2, "", "error 30 BadLine line 2\n", "score"),
    ("classes 1025\n", 2, "", "error 21 OutOfRange line 1\n", "replay"),
    (f"classes {numbers(2, 33)}\n16 1\n", 0, "waste 0\n", "", "score"),
    (f"classes {numbers(2, 34)}\n16 1\n", 2, "", "error 20 TooMany line 1\n", "score"),
    ("classes 2 2\n", 2, "", "error 22 NotAscending line 1\n", "score"),
    # two faults in one line: the first code of the table
    ("classes" + 33 * " 1" + "\n", 2, "", "error 20 TooMany line 1\n", "score"),
    ("classes 5 1\n", 2, "", "error 21 OutOfRange line 1\n", "score"),
    ("classes" + 33 * " 2" + " x\n", 2, "", "error 23 BadLine line 1\n", "score"),
    ("classes 2\n0 2\n", 0, "waste 32\n", "", "score"),  # 2 * (16 - 0)
    ("classes 2 4\n" + FOUR + "large 3\n", 0, "waste 8\n", "", "score"),  # 3 * (16 - 16) + (48 - 40)
    ("classes 2\n17 1\n18 1\n", 1, "not serving 17\n", "", "score"),
    ("classes 2\nsnapshots 1\n17 1\n18 1\n", 1, "not serving 17\n", "", "footprint"),
    ("classes 2\ntimeline\n18\n17\n", 1, "not serving 17\n", "", "footprint"),
    ("classes 2\ntimeline\n18\n17\n", 1, "not serving 17\n", "", "peaks"),
    ("snapshots 1\n0 1\n", 0, "classes 2\nlimit 1\nfootprint 32\nrow 32\n", "", "fit --limit 1"),
    ("malloc 1 16368\ncalloc 2 16369\nrealloc 3 0\n", 0, "0 1\n16368 1\nlarge 1\n", "", "profile"),
)
# class 1024 is the last place, and serves all that is above the other classes
FORCED = (
    # 3 * (16368 - 16) + (16368 - 40) = 65384
    (FOUR, 0, "classes 1024\nlimit 1\nforced 1024\nwaste 65384\nrow 65384 16328 0\n", "", "tune --limit 1 --largest-class 1"),
    # both sizes need 8 granules: 3 * (112 - 16) + (112 - 40) = 360
    (FOUR, 0, "classes 8 1024\nlimit 2\nstep 8\nforced 1024\nwaste 360\nrow 65384 0\nrow 360 0\n", "", "tune --limit 2 --step 8 --largest-class 1"),
    # 3 blocks of 16384 bytes at the first snapshot
    (HISTORY, 0, "classes 1024\nlimit 1\nforced 1024\nfootprint 49152\nrow 49152 16384 0\n", "", "fit --limit 1 --largest-class 1"),
    (FOUR_TABLE.replace("waste", "forced 1024\nwaste") + "row 104 8 0\nrow 8 8 0\n" + FOUR, 1, "refused 41 NotServing\n", "", "check"),
)
FOOTPRINTS = (
    # FORMATS: 4 * 32 + 3 * 64; 6 * 64; and no class for 40 bytes
    ("classes 2 4\n" + THREE_SNAPSHOTS, 0, "footprint 320\n", "", "footprint"),
    ("classes 4\n" + THREE_SNAPSHOTS, 0, "footprint 384\n", "", "footprint"),
    ("classes 2\n" + THREE_SNAPSHOTS, 1, "not serving 40\n", "", "footprint"),
    (THREE_SNAPSHOTS, 0, "classes 2 4\nlimit 2\nfootprint 320\nrow 384 192\nrow 320 192\n", "", "fit --limit 2"),
    # CERTIFICATES: one class takes 3 * 64, two 3 * 32 + 2 * 64
    ("snapshots 2\n16 3 1\n40 0 2\n", 0, "classes 4\nlimit 2\nfootprint 192\nrow 192 128\nrow 192 128\n", "", "fit --limit 2"),
    # `2 4` takes 32 + 2 * 64, and `3 4` takes 2 * 48 + 64: the first
    ("snapshots 1\n16 1\n32 1\n48 1\n", 0, "classes 2 4\nlimit 2\nfootprint 160\nrow 192 128 64\nrow 160 112 64\n", "", "fit --limit 2"),
)
PEAKS = (
    # FORMATS: three blocks, of which one is freed before the last
    ("classes 2 4\ntimeline\n16\n16\n-16\n40\n", 0, "peaks 2 1\nmoments 2 4\nlive 96\nfreed 1\n", "", "peaks"),
    # no block is of class 3, so before the first event there are most of them
    ("classes 2 3 4\ntimeline\n16\n16\n-16\n40\n", 0, "peaks 2 0 1\nmoments 2 0 4\nlive 96\nfreed 1\n", "", "peaks"),
    # one block, given out three times
    ("classes 2\ntimeline\n16\n-16\n16\n-16\n16\n", 0, "peaks 1\nmoments 1\nlive 32\nfreed 1\n", "", "peaks"),
    # each class keeps its own freed block
    ("classes 2 4\ntimeline\n16\n-16\n40\n-40\n", 0, "peaks 1 1\nmoments 1 3\nlive 64\nfreed 2\n", "", "peaks"),
    ("classes 4\ntimeline\n16\n40\n", 0, "peaks 2\nmoments 2\nlive 128\nfreed 0\n", "", "peaks"),
    ("classes 2\ntimeline\nlarge\n16\n-large\n", 0, "peaks 1\nmoments 2\nlive 32\nfreed 0\n", "", "peaks"),
    ("classes 2\ntimeline\n-large\n", 2, "", "error 38 NotLive line 3\n", "peaks"),
    ("classes 2\ntimeline\n0\n-0\n", 0, "footprint 32\n", "", "footprint"),
    ("classes 2\ntimeline\n16\n-16\n-16\n", 2, "", "error 38 NotLive line 5\n", "peaks"),
    ("timeline\n16\n40\n-16\n", 0, TWO_FIT.format(2), "", "fit --limit 1"),
    # over moment 1 one block of 64 bytes, over all two, at moments 2 and 4: the second round has 1 and 2
    (LATER, 0, TWO_FIT.format("1 2"), "", "fit --limit 1"),
    # round 1 over moment 1 takes 64, and over all 3 * 64, first at 5; round 2 has `2 4` with 2 * 32 + 64, and over all
    # 3 * 32 + 3 * 64, first at 7 and 13
    ("timeline\n48\n-48\n16\n16\n32\n-32\n16\n-16\n-16\n-16\n32\n32\n32\n", 0,
     "classes 4\nlimit 2\nfootprint 192\nrow 192 192 64\nrow 192 192 64\nmoments 1 5 7 13\n", "", "fit --limit 2"),
)
VERDICTS = (
    (FOUR_SHEET + FOUR, 0, "optimal\n", "", "check"),
    (FOUR_SHEET + FOUR + "large 2\n", 0, "optimal\nclaim waste 8 limit 2 step 1 forced 0 sizes 2 requests 4 bytes 88 large 2\n", "", "check --claim"),
    (FIT + HISTORY, 0, "optimal\nclaim footprint 160 limit 2 step 1 forced 0 snapshots 2\n", "", "check-fit --claim"),
    ("classes 2 5\nlimit 2\nstep 2\nwaste 0\n" + FOUR, 1, "refused 39 OffStep\n", "", "check"),
    ("classes 2 5\nlimit 1\nstep 2\nwaste 0\n" + FOUR, 1, "refused 39 OffStep\n", "", "check"),
    ("classes 2 5\nlimit 2\nstep 2\nfootprint 0\n" + HISTORY, 1, "refused 39 OffStep\n", "", "check-fit"),
    ("classes 2 4\nlimit 1\nwaste 8\nrow 104 8\n" + FOUR, 1, "refused 40 OverLimit\n", "", "check"),
    ("classes 2 3\nlimit 1\nwaste 0\n" + FOUR, 1, "refused 40 OverLimit\n", "", "check"),
    ("classes 2 4\nlimit 1\nfootprint 160\nrow 192 64\n" + HISTORY, 1, "refused 40 OverLimit\n", "", "check-fit"),
    ("classes 2\nlimit 1\nwaste 5\nrow 0 0\n" + FOUR, 1, "refused 41 NotServing\n", "", "check"),
    (FOUR_SHEET.replace("waste 8", "waste 9") + FOUR, 1, "refused 42 WasteWrong\n", "", "check"),
    (FOUR_SHEET.replace("waste 8", "waste 7") + FOUR, 1, "refused 42 WasteWrong\n", "", "check"),
    ("classes 2 4\nlimit 2\nwaste 7\nrow 104 8\n" + FOUR, 1, "refused 42 WasteWrong\n", "", "check"),
    (FIT.replace("160", "161", 1) + HISTORY, 1, "refused 49 FootprintWrong\n", "", "check-fit"),
    # the sheet has two rows of two numbers, the fit too
    (FOUR_SHEET + "row 8 8\n" + FOUR, 1, "refused 43 Shape\n", "", "check"),
    (FOUR_TABLE + "row 104 8 0\nrow 8 8 0\n" + FOUR, 1, "refused 43 Shape\n", "", "check"),
    (FIT_TABLE + "row 192 64 0\nrow 160 64 0\n" + HISTORY, 1, "refused 43 Shape\n", "", "check-fit"),
    # one class for all wastes 104, for the last need 8; it takes 192 and 64
    (FOUR_TABLE + "row 105 8\nrow 8 8\n" + FOUR, 1, "refused 44 LastClass\n", "", "check"),
    (FOUR_TABLE + "row 104 9\nrow 8 8\n" + FOUR, 1, "refused 44 LastClass\n", "", "check"),
    (FOUR_TABLE + "row 105 8\nrow 106 8\n" + FOUR, 1, "refused 44 LastClass\n", "", "check"),
    (FIT_TABLE + "row 193 64\nrow 160 64\n" + HISTORY, 1, "refused 44 LastClass\n", "", "check-fit"),
    # above the number over it, and above the edge to place 1, which is 0 + 8 and 96 + 64
    (FOUR_TABLE + "row 8 8\nrow 9 8\n" + FOUR, 1, "refused 45 StageDrop\n", "", "check"),
    (FIT_TABLE + "row 160 64\nrow 161 64\n" + HISTORY, 1, "refused 45 StageDrop\n", "", "check-fit"),
    (FOUR_TABLE + "row 104 8\nrow 9 8\n" + FOUR, 1, "refused 46 Edge\n", "", "check"),
    (FIT_TABLE + "row 192 64\nrow 161 64\n" + HISTORY, 1, "refused 46 Edge\n", "", "check-fit"),
    # the edges to the next places hold, and the one from place 0 to 2 does not: 16 + 0 with class 3 for the first two needs
    ("classes 2 4\nlimit 2\nwaste 160\nrow 192 160 0\nrow 160 0 0\n16 1\n32 10\n48 1\n", 1, "refused 46 Edge\n", "", "check"),
    (FOUR_TABLE + "row 104 8\nrow 7 8\n" + FOUR, 1, "refused 47 NotTight\n", "", "check"),
    (FIT_TABLE + "row 192 64\nrow 159 64\n" + HISTORY, 1, "refused 47 NotTight\n", "", "check-fit"),
    (TWO_FIT.format(2) + TWO, 0, "optimal\nclaim footprint 128 limit 1 step 1 forced 0 events 2\n", "", "check-fit --claim"),
    (TWO_FIT.format(3) + TWO, 1, "refused 53 NotMoments\n", "", "check-fit"),
    # over its moment each shows its table, but not over all: two blocks are live at moment 2, and 40 bytes have no class
    ("classes 4\nlimit 1\nfootprint 64\nrow 64\nmoments 1\n" + LATER, 1, "refused 49 FootprintWrong\n", "", "check-fit"),
    ("classes 2\nlimit 1\nfootprint 32\nrow 32\nmoments 1\n" + TWO, 1, "refused 41 NotServing\n", "", "check-fit"),
)
TEXTS = (
    ("16 0\n", 2, "", "error 32 CountOutOfRange line 1\n", "tune --limit 1"),
    ("16 1000000000\n", 0, "classes 2\nlimit 1\nwaste 0\nrow 0\n", "", "tune --limit 1"),
    ("16 1000000001\n", 2, "", "error 32 CountOutOfRange line 1\n", "tune --limit 1"),
    ("16 1\n16 1\n", 2, "", "error 31 NotAscending line 2\n", "tune --limit 1"),
    ("16 1\n15 0\n", 2, "", "error 31 NotAscending line 2\n", "tune --limit 1"),
    ("large 1\n16 1\n", 2, "", "error 30 BadLine line 2\n", "tune --limit 1"),
    ("016 1\n", 2, "", "error 30 BadLine line 1\n", "tune --limit 1"),
    ("snapshots 0\n", 2, "", "error 34 BadSnapshots line 1\n", "fit --limit 1"),
    ("snapshots 1024\n", 0, "classes\nlimit 1\nfootprint 0\nrow\n", "", "fit --limit 1"),
    ("snapshots 1025\n", 2, "", "error 34 BadSnapshots line 1\n", "fit --limit 1"),
    ("snapshots 1\n16 0\n", 2, "", "error 32 CountOutOfRange line 2\n", "fit --limit 1"),
    ("snapshots 2\n16 0 1000000000\n", 0, "classes 2\nlimit 1\nfootprint 32000000000\nrow 32000000000\n", "", "fit --limit 1"),
    ("snapshots 1\n16 1000000001\n", 2, "", "error 32 CountOutOfRange line 2\n", "fit --limit 1"),
    ("snapshots 1\n16 1\n16 1\n", 2, "", "error 31 NotAscending line 3\n", "fit --limit 1"),
    ("snapshots 2\n16 1 1\n15 1\n", 2, "", "error 35 WrongLength line 3\n", "fit --limit 1"),
    ("snapshots 2\n16 x\n", 2, "", "error 30 BadLine line 2\n", "fit --limit 1"),
    ("classes\nlimit 0\nwaste 0\n", 2, "", "error 48 BadSheet line 2\n", "check"),
    ("classes\nlimit 33\nwaste 0\n", 2, "", "error 48 BadSheet line 2\n", "check"),
    ("classes\nlimit 1\nstep 1\nwaste 0\n", 2, "", "error 48 BadSheet line 3\n", "check"),
    ("classes\nlimit 1\nstep 16\nwaste 0\n", 2, "", "error 48 BadSheet line 3\n", "check"),
    ("classes\nlimit 1\nforced 1023\nwaste 0\n", 2, "", "error 48 BadSheet line 3\n", "check"),
    ("classes\nlimit 32\nwaste 0\n" + 32 * "row\n", 0, "optimal\n", "", "check"),
    ("classes\nlimit 32\nwaste 0\n" + 33 * "row\n", 2, "", "error 48 BadSheet line 36\n", "check"),
    (NONE_SHEET + f"row {numbers(1, 1023)}\n", 1, "refused 43 Shape\n", "", "check"),
    (NONE_SHEET + f"row {numbers(1, 1024)}\n", 2, "", "error 48 BadSheet line 4\n", "check"),
    ("classes\nlimit 1\nwaste 18446744073709551615\n", 1, "refused 42 WasteWrong\n", "", "check"),
    ("classes\nlimit 1\nwaste 18446744073709551616\n", 2, "", "error 48 BadSheet line 3\n", "check"),
    # there is no event
    (NONE_FIT + f"moments {numbers(0, 1023)}\ntimeline\n", 1, "refused 53 NotMoments\n", "", "check-fit"),
    (NONE_FIT + f"moments {numbers(0, 1024)}\ntimeline\n", 2, "", "error 36 BadFit line 5\n", "check-fit"),
    (NONE_FIT + "moments 0 0\ntimeline\n", 2, "", "error 36 BadFit line 5\n", "check-fit"),
    (NONE_FIT + "moments 1000000000\ntimeline\n", 1, "refused 53 NotMoments\n", "", "check-fit"),
    (NONE_FIT + "moments 1000000001\ntimeline\n", 2, "", "error 36 BadFit line 5\n", "check-fit"),
)
EVENTS = (
    (80 * "a" + "\n", 2, "", "error 70 BadWord line 1\n", "profile"),
    (81 * "a" + "\n", 2, "", "error 73 LineTooLong line 1\n", "profile"),
    ("malloc 1023 2147483647\n", 0, "large 1\n", "", "profile"),
    ("malloc 1 2147483648\n", 2, "", "error 72 OutOfRange line 1\n", "profile"),
    ("free 1023\nload 1023 1048576 64\nload 1023 -1048576 1\naddg 1023 1023 63 15\n", 0, "", "", "profile"),
    ("load 1 1048577 1\n", 2, "", "error 72 OutOfRange line 1\n", "profile"),
    ("load 1 -1048577 1\n", 2, "", "error 72 OutOfRange line 1\n", "profile"),
    ("load 1 0 0\n", 2, "", "error 72 OutOfRange line 1\n", "profile"),
    ("load 1 0 65\n", 2, "", "error 72 OutOfRange line 1\n", "profile"),
    ("addg 1 1 64 0\n", 2, "", "error 72 OutOfRange line 1\n", "profile"),
    ("subg 1 1 0 16\n", 2, "", "error 72 OutOfRange line 1\n", "profile"),
    ("load 1 -0 1\n", 2, "", "error 71 BadNumber line 1\n", "profile"),
    ("store 1 0 1 A0\n", 2, "", "error 71 BadNumber line 1\n", "profile"),
    ("malloc 1024 01\n", 2, "", "error 72 OutOfRange line 1\n", "profile"),
    ("malloc 01 \n", 2, "", "error 70 BadWord line 1\n", "profile"),
    (1_000_000 * "free 0\n", 0, "", "", "profile"),
    (1_000_001 * "free 0\n", 2, "", "error 74 TooManyEvents line 1000001\n", "profile"),
    (1_000_000 * "free 0\n" + 81 * "a", 2, "", "error 73 LineTooLong line 1000001\n", "profile"),
)
# With seed 1 the offsets are 1, 0, 8, 6, 1, 4, 4, 1 (MACHINE). Slot 0 takes tag 1 at first: one step from tag 0 among the odd ones.
LAYOUTS = (
    ("classes 2\nmalloc 1 16368\nmalloc 1 16369\n", 0, "1 null no-class\n2 null large\n" + total_lines(2, 2, 1, 1, 0, 0, 0, 0, 0), "", "replay"),
    # each class has 21 of 64 granules, and class 22 no slot
    ("classes 2 3 22\nmalloc 1 336\n", 0, "1 null exhausted\n" + total_lines(1, 1, 0, 0, 1, 0, 0, 0, 0), "", "replay --granules 64"),
    # each class has 35 of 70 granules, and class 3 slots 0 to 10: slot 11, at granule 35, is odd, and takes tag 2
    ("classes 3 5\nmalloc 1 33\nload 1 48 1\n", 0,
     "2 fault tag granule 39 memory 0 pointer 2 in tail\n" + total_lines(2, 1, 0, 0, 0, 1, 0, 0, 31), "", "replay --granules 70"),
    # the slot that was freed last is given out: slot 1, whose tag 2 became 14 (offset 6), and is then 4
    ("classes 2\nmalloc 1 16\nmalloc 2 16\nfree 1\nfree 2\nmalloc 3 16\nload 1 0 1\nload 2 0 1\n", 0,
     "6 fault tag granule 1 memory 3 pointer 1 in dead\n7 fault tag granule 3 memory 4 pointer 2 in other\n"
     + total_lines(7, 3, 0, 0, 0, 2, 0, 0, 0), "", "replay --granules 64 --quarantine 0"),
    # the table of HEAP: 64 bytes in the quarantine release nothing, and 96 slot 0
    ("classes 2\nmalloc 1 16\nmalloc 2 16\nmalloc 3 16\nfree 1\nfree 2\nmalloc 4 16\nfree 3\nmalloc 5 16\nload 1 0 1\n", 0,
     "9 fault tag granule 1 memory 3 pointer 1 in other\n" + total_lines(9, 5, 0, 0, 0, 1, 0, 0, 0), "", f"replay {SMALL}"),
    # a third block of class 16 has no slot: class 20 has one, but is not the least that serves it
    ("classes 16 20\nmalloc 1 240\nmalloc 2 240\nmalloc 3 240\n", 0, "3 null exhausted\n" + total_lines(3, 3, 0, 0, 1, 0, 0, 0, 0), "",
     "replay --granules 64"),
    # the block of 48 bytes fills the quarantine, and with the one of 32 it is too much: its slot, number 16, takes the
    # tags 1, 3, and from 15 on 3
    ("classes 2 3\nmalloc 1 32\nfree 1\nmalloc 2 16\nfree 2\nmalloc 3 32\nload 1 0 1\n", 0,
     "6 fault tag granule 33 memory 3 pointer 1 in other\n" + total_lines(6, 3, 0, 0, 0, 1, 0, 0, 0), "", "replay --granules 64 --quarantine 48"),
    # a block of 48 bytes is released at once: tag 1, then 3, then 5
    ("classes 3\nmalloc 1 16\nfree 1\nmalloc 2 16\nload 1 0 1\n", 0,
     "4 fault tag granule 1 memory 5 pointer 1 in other\n" + total_lines(4, 2, 0, 0, 0, 1, 0, 0, 32), "", "replay --granules 64 --quarantine 47"),
)
HEAPS = (
    # the payload is granules 1 and 2, of which the chunk keeps the first
    ("classes 3\nmalloc 1 32\nrealloc 1 16\nload 1 16 1\n", 0,
     "3 fault tag granule 2 memory 0 pointer 1 in tail\n" + total_lines(3, 2, 0, 0, 0, 1, 0, 0, 16), "", "replay --granules 64"),
    # tag 1, then 3 (offset 0, 1 excluded), then 5 (offset 8 of seven: the first after 3)
    ("classes 3\nmalloc 1 32\nfree 1\nmalloc 2 16\nload 2 16 1\n", 0,
     "4 fault tag granule 2 memory 0 pointer 5 in tail\n" + total_lines(4, 2, 0, 0, 0, 1, 0, 0, 16), "", "replay --granules 64 --quarantine 0"),
    # calloc of 1 byte sets a granule to 0, and malloc nothing
    ("classes 3\nmalloc 1 32\nstore 1 0 32 ee\nfree 1\ncalloc 2 1\nfree 2\nmalloc 3 32\nload 3 0 32\n", 0,
     f"7 data {32 * '0'}{32 * 'e'}\n" + total_lines(7, 3, 0, 0, 0, 0, 0, 0, 31), "", "replay --granules 64 --quarantine 0"),
    # as many bytes move as both sizes have: 16 of 32, and 5 of 5; the loss is 11 in class 2 and 12 in class 3
    ("classes 2 3\nmalloc 1 32\nstore 1 0 32 ee\nrealloc 1 16\nload 1 0 16\nmalloc 2 5\nstore 2 0 16 ee\nrealloc 2 20\nload 2 0 16\n", 0,
     f"4 data {32 * 'e'}\n8 data {10 * 'e'}{22 * '0'}\n" + total_lines(8, 4, 0, 0, 0, 0, 0, 0, 23), "", "replay --granules 64"),
    # a dead slot is told before a wrong tag
    ("classes 2\nmalloc 1 16\naddg 2 1 0 1\nfree 1\nfree 2\n", 0, "4 refused not-live\n" + total_lines(4, 1, 0, 0, 0, 0, 0, 1, 0), "", "replay"),
    ("classes 2\nmalloc 1 16\naddg 2 1 0 1\nfree 2\n", 0, "3 refused wrong-tag\n" + total_lines(3, 1, 0, 0, 0, 0, 0, 1, 0), "", "replay"),
    # the payload of slot 1, which is fresh; and the second granule of a payload
    ("classes 2\nmalloc 1 16\naddg 2 1 2 0\nfree 2\n", 0, "3 refused not-live\n" + total_lines(3, 1, 0, 0, 0, 0, 0, 1, 0), "", "replay"),
    ("classes 3\nmalloc 1 32\naddg 2 1 1 0\nfree 2\n", 0, "3 refused misplaced\n" + total_lines(3, 1, 0, 0, 0, 0, 0, 1, 0), "", "replay"),
    # the pointer is refused before the size
    ("classes 2\nmalloc 1 16\nfree 1\nrealloc 1 20000\n", 0, "3 refused not-live\n" + total_lines(3, 2, 0, 0, 0, 0, 0, 1, 0), "", "replay"),
    # a chunk grows in its slot, and keeps its pointer; it shrinks into slot 0, which takes tag 1 (offset 0), and leaves
    # tag 3 (offset 8 of seven)
    ("classes 2 4\nmalloc 1 20\naddg 2 1 0 0\nrealloc 1 48\nload 2 32 1\nrealloc 1 16\nload 2 0 1\n", 0,
     "4 data 00\n6 fault tag granule 33 memory 3 pointer 1 in dead\n" + total_lines(6, 3, 0, 0, 0, 1, 0, 0, 28), "", "replay --granules 64"),
    # the calls of HEAP: the new chunk draws its tag before the old one
    ("classes 3 5\nmalloc 1 5\nmalloc 2 20\naddg 3 1 0 0\nrealloc 1 33\nload 3 0 1\nfree 2\nload 2 0 1\nload 1 48 1\n", 0,
     "5 fault tag granule 1 memory 13 pointer 1 in dead\n7 fault tag granule 4 memory 14 pointer 2 in dead\n"
     "8 fault tag granule 36 memory 0 pointer 1 in tail\n" + total_lines(8, 3, 0, 0, 0, 3, 0, 0, 70), "", "replay --granules 64"),
    # null is freed without a line, and resized as by malloc; a refused malloc sets null, and a refused realloc nothing
    ("classes 2\nfree 1\nrealloc 1 16\nload 1 0 1\nrealloc 1 20000\nload 1 0 1\nmalloc 1 20000\nload 1 0 1\n", 0,
     "3 data 00\n4 null large\n5 data 00\n6 null large\n7 fault unmapped\n" + total_lines(7, 3, 2, 0, 0, 0, 1, 0, 0), "", "replay"),
    # one granule up to the neighbour's tag 2, and fourteen of the fifteen steps back to tag 1
    ("classes 2\nmalloc 1 16\nmalloc 2 16\nstore 2 0 2 c3\naddg 3 1 2 1\nload 3 0 3\nsubg 3 3 2 14\nload 3 0 1\n", 0,
     "5 data c3c300\n7 data 00\n" + total_lines(7, 2, 0, 0, 0, 0, 0, 0, 0), "", "replay"),
)
ACCESSES = (
    # granules 1 to 63 are the chunk: bytes 16 to 1023 of the region
    ("classes 64\nmalloc 1 1008\nload 1 1007 1\nload 1 1007 2\naddg 2 1 0 1\nload 2 1007 2\nload 1 -16 1\nload 1 -17 1\n", 0,
     "2 data 00\n3 fault unmapped\n5 fault unmapped\n6 fault tag granule 0 memory 0 pointer 1 in header\n7 fault unmapped\n"
     + total_lines(7, 1, 0, 0, 0, 1, 3, 0, 0), "", "replay --granules 64"),
    # the lowest granule with another tag; nothing is written before a fault
    ("classes 2\nmalloc 1 16\nstore 1 8 16 ee\nload 1 0 16\nload 1 16 32\nload 1 32 1\n", 0,
     f"2 fault tag granule 2 memory 0 pointer 1 in header\n3 data {32 * '0'}\n4 fault tag granule 2 memory 0 pointer 1 in header\n"
     "5 fault tag granule 3 memory 0 pointer 1 in tail\n" + total_lines(5, 1, 0, 0, 0, 3, 0, 0, 0), "", "replay"),
    ("classes 2\nmalloc 1 16\nstore 1 0 4 5a\nload 1 2 4\n", 0, "3 data 5a5a0000\n" + total_lines(3, 1, 0, 0, 0, 0, 0, 0, 0), "", "replay"),
    # the chunk of a released slot is dead, and its tail is tail
    ("classes 3\nmalloc 1 16\nfree 1\nload 1 0 1\nload 1 16 1\n", 0,
     "3 fault tag granule 1 memory 3 pointer 1 in dead\n4 fault tag granule 2 memory 0 pointer 1 in tail\n"
     + total_lines(4, 1, 0, 0, 0, 2, 0, 0, 16), "", "replay --granules 64 --quarantine 0"),
    # slots 0 to 20 of class 3 in 63 of 64 granules
    ("classes 3\nmalloc 1 16\nload 1 992 1\n", 0,
     "2 fault tag granule 63 memory 0 pointer 1 in slack\n" + total_lines(2, 1, 0, 0, 0, 1, 0, 0, 16), "", "replay --granules 64"),
)
ANSWERS = ANSWERS + SIZES + FORCED + FOOTPRINTS + PEAKS + VERDICTS + TEXTS + EVENTS + LAYOUTS + HEAPS + ACCESSES
