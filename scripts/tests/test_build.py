"""Tests scripts/check_sheet, the C++ of scripts/scudo_classes, and the rules of examples/build in copies of their own."""

import os
import re
import resource
import shutil
import subprocess
from pathlib import Path

import checks
import workflow
from checks import expect, skip

ROOT = os.path.realpath(os.path.join(os.path.dirname(os.path.realpath(__file__)), "../.."))

SCRIPTS = os.path.join(ROOT, "scripts")
EXAMPLES = os.path.join(ROOT, "examples")
COUNTED_PROGRAM = ["sort", "-o", "/dev/null", os.path.join(ROOT, "docs/FORMATS.md")]


def run(words, status=None, says=(), folder=None, **more):
    """Runs a command, and tests its status and what it says; its output, both streams."""
    done = subprocess.run(words, cwd=folder, stdin=subprocess.DEVNULL, stdout=subprocess.PIPE, stderr=subprocess.STDOUT, text=True, **more)
    shown = f"status {done.returncode}: {done.stdout}"
    if status is not None:
        expect(" ".join(words), (done.returncode != 0) if status == "not 0" else done.returncode == status, shown)
    for text in says:
        expect(f"{' '.join(words)}: it does not say `{text}`", text in done.stdout, shown)
    return done.stdout


def limit_memory():
    """A script that reads without end must not take this machine's memory."""
    resource.setrlimit(resource.RLIMIT_AS, (2 << 30, 2 << 30))


def write(folder, name, text):
    path = os.path.join(folder, name)
    Path(path).write_text(text)
    return path


def read(folder, name):
    """The text of a file, and none of one that is not there."""
    if not os.path.exists(os.path.join(folder, name)):
        return ""
    return Path(folder, name).read_text()


def tuned_sheet(*words):
    """The sheet of examples/sqlite.profile."""
    with open(os.path.join(EXAMPLES, "sqlite.profile")) as file:
        return subprocess.run([os.path.join(SCRIPTS, "mte_tool"), "tune", *words], stdin=file, stdout=subprocess.PIPE, text=True, check=True).stdout


def judges_fits(work, checker, profile, good):
    """The fit that docs/FORMATS.md has, of the history there, and others."""
    fit = "classes 2 4\nlimit 2\nfootprint 320\nrow 384 192\nrow 320 192\n"
    of_history, history = write(work, "good.fit", fit), write(work, "history", "snapshots 3\n16 4 0 1\n40 2 3 0\nlarge 0 1 0\n")
    run([checker, of_history, history, "--limit", "2"], 0, ["2 sizes at 3 snapshots", "the fit is whole", "none takes less over its 3 snapshots than 320 bytes"])
    run([checker, write(work, "open.fit", fit.rstrip("\n")), history], 0, ["optimal"])
    run([checker, of_history, history, "--limit", "3"], 1, ["--limit 2, and not for --limit 3"])
    for change, says in (
        (("footprint 320", "footprint 321"), ["refused 49 FootprintWrong", "another history"]),
        (("classes 2 4", "classes 2 3"), ["refused 41 NotServing", "A size of the history has no class"]),
        (("row 384 192", "row 385 192"), ["refused 44 LastClass", "more than one class takes"]),
    ):
        run([checker, write(work, "changed.fit", fit.replace(*change)), history], 1, says)
    judges_timelines(work, checker, history, of_history, profile, good)


def test_check_sheet(work):
    checker, profile = os.path.join(SCRIPTS, "check_sheet"), os.path.join(EXAMPLES, "sqlite.profile")
    text = tuned_sheet("--limit", "8")
    good = write(work, "good.sheet", text)
    # docs/TUNING.md has this sheet's waste
    run([checker, good, profile], 0, [f"{checks.OPTIMAL}: of the tables of at most 8 classes, all multiples of 16 bytes", "without 15 large ones, than 334,351 bytes"])
    run([checker, good, profile, "--limit", "8", "--step", "1"], 0, ["optimal"])
    run([checker, "--limit=8", good, profile], 0, ["optimal"])
    write(work, "--limit", text)
    run([checker, "--step", "1", "--", "--limit", profile], 0, ["optimal"], folder=work)
    run([checker, good, profile, "--limit", "9"], 1, ["--limit 8, and not for --limit 9"])
    run([checker, write(work, "step.sheet", tuned_sheet("--limit", "8", "--step", "2")), profile], 1, ["--step 2, and not for --step 1"])
    run([checker, os.path.join(work, "step.sheet"), profile, "--step", "2"], 0, ["optimal", "--step 2", "all multiples of 32 bytes"])
    odd = write(work, "odd\x1b[31m.profile", read(EXAMPLES, "sqlite.profile"))
    expect("a name that moves the cursor is printed raw", "\x1b" not in run([checker, good, odd], 0, ["odd\\x1b[31m.profile"]))
    run([checker, good, os.path.join(EXAMPLES, "jq.profile")], 1, ["good.sheet: refused 41 NotServing", "another profile"])
    run([checker, write(work, "waste.sheet", text.replace("waste 334351", "waste 334350")), profile], 1, ["refused 42 WasteWrong"])
    # a table without one of its classes, with the rows and the waste of the best
    run([checker, write(work, "fewer.sheet", re.sub("^classes 2 4 11", "classes 4 11", text)), profile], 1, ["refused 42 WasteWrong"])
    refuses_words(work, checker, good, profile, text)
    keeps_borders(work, checker, profile, text)
    judges_steps(work, checker)
    judges_fits(work, checker, profile, good)
    shown = run([checker, "--help"], 0, ["Usage: ", "Exit status:"])
    expect("check_sheet --help: a line has more than 132 columns", max(map(len, shown.splitlines())) <= 132)
    broken = write(work, "no_mte_tool", "#!/bin/sh\nexit 3\n")
    os.chmod(broken, 0o755)
    run([checker, good, profile], 3, [], env={**os.environ, "MTE_TOOL": broken})


def keeps_borders(work, checker, profile, text):
    """A sheet that would move its last line to the profile, and one without its last newline, whose last number would go on in the profile."""
    with open(profile) as file:
        more = subprocess.run([os.path.join(SCRIPTS, "mte_tool"), "tune", "--limit", "8"], input="0 1000000\n" + file.read(), stdout=subprocess.PIPE,
                              text=True, check=True).stdout
    run([checker, write(work, "evil.sheet", f"{more}0 1000000\n"), profile], 2, ["line 12 is no line of a sheet"])
    for sheet, status, said in (("evil.sheet", 2, "line 12 is no line of a sheet"), (write(work, "open.sheet", text.rstrip("\n")), 0, "334,351 bytes")):
        run(["bash", "-c", f"{SCRIPTS}/merge_profiles -- {profile} | {checker} {os.path.join(work, sheet)} -"], status, [said])


def judges_timelines(work, checker, history, of_history, profile, good):
    """A fit of a timeline, and what is taken for one."""
    # 40 and 16 bytes are live at once, and then two of 16
    run_of = write(work, "app.timeline", "timeline\n40\n16\n-40\n16\nlarge\n")
    with open(run_of) as file:
        fit = subprocess.run([os.path.join(SCRIPTS, "mte_tool"), "fit", "--limit", "2"], stdin=file, stdout=subprocess.PIPE, text=True, check=True).stdout
    of_run = write(work, "run.fit", fit)
    run([checker, of_run, run_of, "--limit", "2"], 0, ["5 events, with requests of 2 sizes", "the fit is whole", "over all moments of its 5 events than 128 bytes"])
    run([checker, of_run, run_of, "--limit", "3"], 1, ["--limit 2, and not for --limit 3"])
    run([checker, of_run, history], 1, ["is the fit of a timeline, and", "is a history"])
    run([checker, of_history, run_of], 1, ["is the fit of a history, and", "is a timeline"])
    run([checker, of_run, write(work, "more.timeline", "timeline\n40\n40\n40\n40\n")], 1, ["run.fit: refused 49 FootprintWrong", "another timeline"])
    run([checker, of_run, write(work, "short.timeline", "timeline\n40\n")], 1, ["refused 53 NotMoments", "another timeline"])
    run([checker, of_run, write(work, "freed.timeline", "timeline\n40\n-16\n")], 2, ["freed.timeline: 38 NotLive line 3", "record the run again"])
    run([checker, of_run, write(work, "none.timeline", "timeline\nlarge\n")], 2, ["has no request"])
    run([checker, of_history, write(work, "large.history", "snapshots 1\nlarge 5\n")], 2, ["counts no block"])
    run([checker, of_history, profile], 2, ["is of a profile, and no history"])
    run([checker, good, history], 2, ["is of a history"])
    run([checker, write(work, "cut.fit", "".join(fit.splitlines(True)[:4])), history], 2, ["1 rows for a limit of 2"])
    descending = write(work, "descending.history", "snapshots 1\n32 1\n16 1\n")
    run([checker, of_history, descending], 2, ["31 NotAscending line 3", "bring its lines in order"])


def judges_steps(work, checker):
    """The step is part of the claim: a table of another step wastes less."""
    three, coarse = write(work, "three.profile", "17 3\n"), "classes 8\nlimit 1\nstep 8\nwaste 285\nrow 285\n"
    run([checker, write(work, "coarse.sheet", coarse), three, "--step", "8"], 0, ["at most 1 class, a multiple of 128 bytes", "than 285 bytes"])
    # whose fault it is: a line that is wrong in its place is the sheet's, with its line there
    for change, at in ((("step 8\nwaste 285", "waste 285\nstep 8"), 4), (("row 285", "row 99999999999999999999"), 5)):
        run([checker, write(work, "turned.sheet", coarse.replace(*change)), three, "--step", "8"], 2, ["turned.sheet: ", f" line {at}: no sheet has this line"])
    # no more is read than a file may have
    for sheet, counts, named in (("/dev/zero", three, "/dev/zero has more than"), (write(work, "long.sheet", coarse + "row 1\n" * 200_000), three, "long.sheet"),
                                 (os.path.join(work, "coarse.sheet"), "/dev/zero", "/dev/zero has more than")):
        run([checker, sheet, counts, "--step", "8"], 2, [named], timeout=60, preexec_fn=limit_memory)


def refuses_words(work, checker, good, profile, text):
    """Words and files that are refused."""
    empty = write(work, "empty", "")
    run([checker, good, empty], 2, ["empty is empty"])
    run([checker, empty, profile], 2, ["empty is empty"])
    run([checker, good, os.path.join(work, "missing")], 2, ["No such file"])
    run([checker, good, write(work, "large.profile", "large 5\n")], 2, ["counts no request"])
    run([checker, write(work, "cut.sheet", "".join(text.splitlines(True)[:5])), profile], 2, ["rows for a limit of 8"])
    run([checker, profile, profile], 2, ["no class line"])
    run([checker, good, good], 2, ["is of a sheet"])
    run([checker, good, write(work, "descending.profile", "32 1\n16 1\n")], 2, ["31 NotAscending line 2", "merge_profiles"])
    run([checker, good], 2, ["name a sheet and a profile"])
    run([checker, good, profile, "--limit"], 2, ["--limit takes"])
    run([checker, good, profile, "--limit", "33"], 2, ["from 1 to 32"])
    run([checker, good, profile, "--step", "3"], 2, ["1, 2, 4 or 8"])
    run([checker, good, profile, "--wrong"], 2, ["there is no option --wrong"])


# What the two headers of scudo_classes need of Scudo, and a program that says which block each size gets.
SCUDO = """
#include <cstdint>
#include <cstdio>
#define SCUDO_CAN_USE_PRIMARY64 1
namespace scudo {
typedef unsigned long uptr; typedef uint8_t u8; typedef uint16_t u16; typedef uint32_t u32; typedef int32_t s32;
inline uptr getLeastSignificantSetBitIndex(uptr X) { return __builtin_ctzl(X); }
struct DefaultSizeClassConfig { static const u16 MaxNumCachedHint = 14; };
template <typename C> struct SizeClassMapBase {};
template <typename C> struct SizeClassAllocator64 {};
template <typename C> struct MapAllocatorCache {};
template <typename C> struct MapAllocator {};
template <class A> struct TSDRegistryExT {};
}
INCLUDED
int main() {
  typedef scudo::CLASSES Map;
  for (unsigned long Size = 1; Size <= Map::MaxSize; ++Size) printf("%lu\\n", Map::getSizeByClassId(Map::getClassIdBySize(Size)));
}
"""


def test_scudo_classes(work):
    """Each size gets the least block that holds it, by either header."""
    if not shutil.which("c++"):
        skip("without c++: the headers of scudo_classes")
        return
    sheet = write(work, "classes", "classes 2 3 7 40 512 1024\n")
    # Scudo's own blocks from 16 KiB on, and for each power of two one that is 16 bytes larger
    own = [1024 * size for size in (16, 20, 24, 28, 32, 40, 48, 56, 64, 80, 96, 112, 128)]
    own = sorted([*own, *(16 + 1024 * size for size in (16, 32, 64, 128))])
    blocks = [32, 48, 112, 640, 8192, *own]
    wanted = "".join(f"{next(block for block in blocks if block >= size)}\n" for size in range(1, own[-1] + 1))
    headers = {
        "tuned_map.inc": ([], 'namespace scudo {\n#include "tuned_map.inc"\n}', "DefaultSizeClassMap"),
        "custom_scudo_config.h": (["--config"], '#include "custom_scudo_config.h"', "Config::Primary::SizeClassMap"),
    }
    for name, (words, included, classes) in headers.items():
        write(work, name, run([os.path.join(SCRIPTS, "scudo_classes"), *words, sheet], 0))
        program = write(work, "blocks.cpp", SCUDO.replace("INCLUDED", included).replace("CLASSES", classes))
        run(["c++", "-std=c++17", "-Wall", "-Werror", "-Wno-unused", program, "-o", os.path.join(work, "blocks")], 0)
        expect(f"{name}: the blocks", run([os.path.join(work, "blocks")], 0) == wanted)
        expect(f"{name}: a table with class 1024 has no warning", "No class is tuned above" not in read(work, name))
        wrong_tables_do_not_compile(work, name, program)


def wrong_tables_do_not_compile(work, name, program):
    """Each change of the table by hand that makes it a wrong one, and two that don't."""
    right, tail = read(work, name), ("1024, 1025, 1280, 1536, 1792, 2048, 2049, 2560, 3072, 3584, 4096,\n      4097, 5120, 6144, 7168, 8192, 8193")
    compiled = ["c++", "-std=c++17", "-fsyntax-only", program]
    tables = {
        "2, 3, 7, 40, 513,": None,
        "2, 1022, 1023,": None,
        "2, 1023, 1024,": "do not ascend",
        "5, 3, 900,": "do not ascend",
        "3, 3, 3,": "do not ascend",
        "2, 2000,": "do not ascend",
        "1, 3,": "no room for a header",
        "0,": "no room for a header",
        "1.5, 7,": "narrow",
        "-7, 2,": "narrow",
        "2, 70000,": "narrow",
        "NaN,": "declared",
        "": "no tuned class",
        "".join(f"{c}," for c in range(2, 35)): "more than 32",
    }
    for table, error in tables.items():
        write(work, name, right.replace("2, 3, 7, 40, 512,", table))
        run(compiled, 0 if error is None else "not 0", [error] if error else [])
    for other, error in (("", "does not serve the largest requests"), (f"{tail}, 9000", "above Scudo's largest")):
        write(work, name, right.replace(tail, other))
        run(compiled, "not 0", [error])
    write(work, name, right)


def try_rules(name, work, first, again):
    """The rules of a build: first(folder, program) says which program it counts, and the command `again` runs it."""
    folder = os.path.join(work, name)
    os.mkdir(folder)
    # a program that is not there: the build fails, says so, and leaves no profile that a second run would take for one
    first(folder, ["no_such_program"])
    for _ in range(2):
        run(again, "not 0", ["no_such_program"], folder)
        expect(f"{name}: a profile is left", not os.path.exists(os.path.join(folder, "live.profile")))
        expect(f"{name}: a table is left", not os.path.exists(os.path.join(folder, "tuned_map.inc")))
    first(folder, COUNTED_PROGRAM)
    run(again, 0, ["optimal"], folder)
    expect(f"{name}: the header has no class 1025", "1025," in read(folder, "tuned_map.inc"))
    expect(f"{name}: a second run does it again", "optimal" not in run(again, 0, [], folder))
    # a sheet that has changed: the refusal ends the build, and its reason is seen
    sheet = read(folder, "app.sheet")
    write(folder, "app.sheet", re.sub("(?m)^waste .*", "waste 0", sheet))
    for _ in range(2):
        run(again, "not 0", ["refused 42 WasteWrong"], folder)
    # and so does an empty profile
    write(folder, "app.sheet", sheet)
    write(folder, "live.profile", "")
    run(again, "not 0", ["live.profile is empty"], folder)


def clone(work, name):
    """The builds in folders as a clone has them, so that what they write is not in this one."""
    build = os.path.join(work, name, "examples/build")
    shutil.copytree(os.path.join(EXAMPLES, "build"), build)
    for linked in ("scripts", "docs"):
        os.symlink(os.path.join(ROOT, linked), os.path.join(work, name, linked))
    return build


def without_package():
    """An environment in which no installed package is found."""
    folders = os.environ["PATH"].split(os.pathsep)
    return {**os.environ, "PATH": os.pathsep.join(folder for folder in folders if not os.path.exists(f"{folder}/mte_check_sheet"))}


def test_make(work):
    checks.need("make cc", "the rules of examples/build for make")
    # as written, where it stands, and from another folder
    makefile = os.path.join(EXAMPLES, "build/Makefile")
    os.mkdir(os.path.join(work, "made"))
    for folder, words in ((clone(work, "clone"), ["make"]), (os.path.join(work, "made"), ["make", "-f", makefile])):
        run(words, 0, ["optimal"], folder, env=without_package())
        expect(f"{words}: the header has no class 1025", "1025," in read(folder, "tuned_map.inc"))
        run([*words, "clean"], 0, [], folder, env=without_package())
        expect("make clean: what was made is left", not os.path.exists(os.path.join(folder, "live.profile")))
    # a copy beside which no scripts are, without a package
    alone = os.path.join(work, "alone")
    os.mkdir(alone)
    shutil.copy(makefile, alone)
    run(["make"], "not 0", ["mte_check_sheet is not on the PATH: install the package"], alone, env=without_package())

    os.symlink(SCRIPTS, os.path.join(work, "the scripts"))
    words = ["make", "-f", makefile, f"SCRIPTS={work}/the scripts"]
    again = [*words, ""]

    def first(_, program):
        again[-1] = "PROGRAM=" + " ".join(program)

    try_rules("make", work, first, again)


def test_cmake(work):
    checks.need("cmake make cc", "the rules of examples/build for cmake")
    # as written
    source = clone(work, "a clone")
    run(["cmake", "-B", "build"], 0, [], source, env=without_package())
    run(["cmake", "--build", "build"], 0, ["optimal"], source, env=without_package())
    expect("cmake: the header has no class 1025", "1025," in read(source, "build/tuned_map.inc"))
    # files of the sources that have the names of what is built: they are not taken, and stay
    mixed = os.path.join(work, "mixed")
    os.makedirs(os.path.join(mixed, "build"))
    shutil.copy(os.path.join(source, "CMakeLists.txt"), mixed)
    names = ("live.profile", "app.sheet", "tuned_map.inc")
    for name in names:
        write(mixed, name, "of the sources\n")
    run(["cmake", f"-DSCRIPTS={SCRIPTS}", ".."], 0, [], os.path.join(mixed, "build"))
    run(["cmake", "--build", "."], 0, ["optimal"], os.path.join(mixed, "build"))
    expect("a file of the sources is built over", all(read(mixed, name) == "of the sources\n" for name in names))
    expect("a file of the sources is taken", "1025," in read(os.path.join(mixed, "build"), "tuned_map.inc"))
    # a copy beside which no scripts are, without a package
    run(["cmake", "-B", "alone", mixed], "not 0", ["mte_check_sheet is not on the PATH: install the package"], work, env=without_package())

    def first(folder, program):
        run(["cmake", f"-DSCRIPTS={SCRIPTS}", f"-DPROGRAM={';'.join(program)}", os.path.join(EXAMPLES, "build")], 0, [], folder)

    try_rules("cmake", work, first, ["cmake", "--build", "."])


def test_workflow(work):
    """The step that checks, by the names of an installed package. scripts/tests/test_package.py runs all steps, over the package itself."""
    names = os.path.join(work, "bin")
    os.mkdir(names)
    for name in ("check_sheet", "scudo_classes"):
        os.symlink(os.path.join(SCRIPTS, name), os.path.join(names, f"mte_{name}"))
    os.symlink(os.path.join(SCRIPTS, "mte_tool"), os.path.join(names, "mte_tool"))
    script = workflow.scripts(read(EXAMPLES, "build/workflow.yml"))[-1]
    folder = os.path.join(work, "workflow")
    os.mkdir(folder)
    shutil.copy(os.path.join(EXAMPLES, "sqlite.profile"), os.path.join(folder, "app.profile"))
    write(folder, "app.sheet", tuned_sheet("--limit", "8", "--largest-class", "1"))

    def step(passes, says, limit="8"):
        done = workflow.run(script, folder, {**os.environ, "PATH": f"{names}:{os.environ['PATH']}", "LIMIT": limit})
        expect(f"the step: {says}", (done.returncode == 0) == passes and says in done.stdout, f"status {done.returncode}: {done.stdout}")

    step(True, "optimal")
    expect("the step: no header", "TunedClasses" in read(folder, "tuned_map.inc"))
    step(False, "--limit 8, and not for --limit 16", limit="16")
    shutil.copy(os.path.join(EXAMPLES, "jq.profile"), os.path.join(folder, "app.profile"))
    step(False, "refused 42 WasteWrong")
    write(folder, "app.profile", "")
    step(False, "app.profile is empty")
