#!/usr/bin/env -S python3 -B
"""Tests `find_faults --asan` on programs that gcc and clang built with -fsanitize=address, on the built program or on the
one that MTE_TOOL names: programs of examples/errors are told at their lines, and the heap says of each what its comments
say; and the job of examples/build/sanitizer.yml. With --all all of them, by both."""

import os
import re
import shutil
import subprocess
from concurrent.futures import ThreadPoolExecutor
from pathlib import Path

import checks
import workflow
from checks import expect
from mte_scripts.faults import fault_log, fault_report
from mte_scripts.places import EXAMPLES
from test_faults import COMPILERS, ERRORS, FIND, PROGRAMS, Example, build_sanitized, run

BUILT = checks.PROGRAM
VARIABLES = os.path.join(PROGRAMS, "variables.c")
AFTER_RETURN, RUNS = "detect_stack_use_after_return=1", 60
RECOVER = ("-O0", "-fsanitize-recover=address")
NAMES = """cwe122_loop_bound.c cwe122_strcpy.c cwe124_byte_before.c cwe193_text_in_last_granule.c
    cwe415_double_delete.cpp cwe415_realloc_of_freed.c cwe416_store_at_once.c cwe126_memcpy.c cwe825_realloc_moved.c""".split()
# a crash, a store that is nearer to another block, and one to a block of size 0, which has a byte for AddressSanitizer
OTHERWISE = ("cwe590_constant.c", "cwe787_far.c", "cwe787_size_0.c")


def cases_of_variables():
    """What variables.c says of its accesses: line, what is told, variable, and what the model says; and the lines of the variables."""
    lines = list(enumerate(Path(VARIABLES).read_text().split("\n"), 1))
    wrong = [(number, *found.groups()) for number, line in lines if (found := re.search(r"// (.* variable (\w+) .*) \[(.*)\]", line))]
    return wrong, {name: number for number, line in lines if (found := re.search(r"// ([\w ]+)$", line)) for name in found[1].split()}


def try_example(example, compiler, work):
    """The error is told at its line, and whether the heap catches it is what the comments say of it."""
    program = build_sanitized(example.path, os.path.join(work, f"{example.name}.{compiler}"), compiler, *RECOVER)
    name = f"{example.name} with {compiler}"
    status, told, said = run([FIND, "--asan", program], cwd=ERRORS)
    if not example.heap:
        return expect(f"{name}: it has no error", status == 0 and told.startswith("errors 0\n"), status, told, said)
    line = rf"^(?:    then )?{re.escape(example.name)}:{example.wrong[0]} in .*: {re.escape(example.says)}"
    found = re.search(line + r"(?: \(\d+ times\))?(?:: (.*)|\n(?:    (?:also )?from .*\n)*    (.*))$", told, re.M)
    answer = found and (found[1] or found[2]).split(":")[0]
    results = {"always": ("caught",), "never": ("not caught",), "sometimes": ("caught", "not caught")}[example.heap]
    return expect(f"{name}: {example.wrong[0]}, {example.says}, {results}", answer in results, status, told, said)


class FaultsAsan(checks.Part):
    @classmethod
    def setup_class(cls):
        checks.need("gcc g++", "find_faults --asan")
        os.environ["MTE_TOOL"] = checks.with_heap()
        cls.work = os.environ["XDG_CACHE_HOME"] = cls.folder()

    def test_examples(self):
        files = [each for each in sorted(os.listdir(ERRORS)) if each.endswith((".c", ".cpp")) and each not in OTHERWISE]
        names = files if checks.options.all else NAMES
        with ThreadPoolExecutor(os.cpu_count()) as pool:
            for compiler, both in COMPILERS.items():
                if checks.skip_without(" ".join(both), f"find_faults --asan with {compiler}"):
                    continue
                some = names if checks.options.all or compiler == "gcc" else names[:4]
                told = list(pool.map(lambda name: try_example(Example(name), compiler, self.work), some))
                print(f"{compiler}: {sum(map(bool, told))} of {len(told)} as in the run of traced_cc")

    def test_end(self):
        """Where AddressSanitizer ends the program at its first error, no more is told. That is said; and what is a guess."""
        program = build_sanitized(f"{ERRORS}/cwe122_loop_bound.c", f"{self.work}/stops", "gcc", "-O0")
        status, told, said = run([FIND, "--asan", program])
        good = status == 1 and "\n    not caught: " in told and told.endswith(f"\nincomplete: {fault_log.STOP}\n")
        expect("a program that its first error ends", good and " then " not in told, status, told, said)
        build_sanitized(f"{ERRORS}/cwe787_far.c", f"{self.work}/cwe787_far.c.gcc", "gcc", *RECOVER)
        names = (*NAMES[1:4], "cwe787_far.c")
        told = {name: run([FIND, "--asan", os.path.join(self.work, f"{name}.gcc")])[1] for name in names}
        guesses = [name for name, text in told.items() if fault_report.GUESS in text]
        expect("what is a guess", guesses == [NAMES[1], NAMES[3], "cwe787_far.c"], told)

    def test_variables(self):
        """Wrong accesses of variables are told with their names, by a run and by its reports, and what the model says of each."""
        wrong, declared = cases_of_variables()
        for compiler, both in COMPILERS.items():
            if checks.skip_without(" ".join(both), f"variables with {compiler}"):
                continue
            program = build_sanitized(VARIABLES, f"{self.work}/variables.{compiler}", compiler, *RECOVER)
            for at, (number, says, name, results) in enumerate(wrong):
                log = f"{self.work}/variables.{compiler}.{at}"
                with open(log, "w") as file:
                    subprocess.run([program, str(at)], stderr=file, env=dict(os.environ, ASAN_OPTIONS=AFTER_RETURN))
                for words in (["--asan", program, str(at)], ["--read", log]):
                    status, told, said = run([FIND, *words], cwd=PROGRAMS)
                    model = re.findall(r"(?m)^ {4,8}(?:LLVM's .*model|i[fn] .*): ((?:not )?caught\b.*?):", told)
                    is_told = re.match(rf"(?:\S+/)?variables\.c:{number} in main: {re.escape(says)}\n    not replayed: ", told)
                    is_there = f"\n    declared at variables.c:{declared[name]}" in told
                    good = status == 1 and is_told and is_there and ", ".join(model).replace("caught by ", "") == results and "\nerrors 1\n" in told
                    expect(f"{compiler}, {words}: {says}", good and ("Scudo's heap" in told) == (not results), model, told, said)

    def test_model(self):
        """What the model says of LLVM's stack tagging is what comes of the same program, built by it, on QEMU's processor with tags."""
        qemu = next(filter(shutil.which, ("qemu-aarch64", "qemu-aarch64-static")), "qemu-aarch64")
        checks.need(f"clang aarch64-linux-gnu-gcc {qemu}", "the model of stack tagging")
        words = ["clang", "--target=aarch64-linux-gnu", "-march=armv8.5-a+memtag", "-fsanitize=memtag", "-w", "-Dmain=tagged_main", "-c"]
        seen = set()
        for level in ("-O0", "-O1"):
            made, program = f"{self.work}/tagged{level}.o", f"{self.work}/tagged{level}"
            done = run([*words, level, VARIABLES, "-o", made])
            linked = run(["aarch64-linux-gnu-gcc", "-static", "-march=armv8.5-a+memtag", f"{PROGRAMS}/tagged_stack.c", made, "-o", program])
            expect(f"a program with a tagged stack, {level}", done[0] == linked[0] == 0, done, linked)
            for at, (_, says, _, results) in enumerate(cases_of_variables()[0]):
                caught = int(run([qemu, "-cpu", "max", program, str(at), str(RUNS)])[1]) if results else None
                result = {0: "not caught", RUNS: "caught"}.get(caught, "14/15")
                good = result in results.split(", ") and (result != "14/15" or caught > RUNS * 3 // 4)
                expect(f"{level}: {says}: caught {caught} of {RUNS}", not results or good, results)
                seen.add((at, result))
        expect("the end of a scope", {(4, "not caught"), (4, "caught")} <= seen, seen)

    def test_halt(self):
        """With --halt a program that could go on ends at its first error."""
        program = build_sanitized(f"{ERRORS}/cwe122_loop_bound.c", f"{self.work}/halts", "gcc", *RECOVER)
        status, told, said = run([FIND, "--asan", "--halt", program])
        good = status == 1 and told.endswith(f"\nincomplete: {fault_log.HALT}\n") and " then " not in told
        expect("--asan --halt", good and "\nthe program ended with status 1\n" in told, status, told, said)

    def test_mismatches(self):
        """What ends a block by a function that does not fit, as the comments of the program say."""
        program = build_sanitized(os.path.join(PROGRAMS, "mismatches.cpp"), f"{self.work}/mismatches", "gcc", *RECOVER)
        lines = enumerate(Path(PROGRAMS, "mismatches.cpp").read_text().split("\n"), 1)
        wanted = [(str(number), found[1]) for number, line in lines if (found := re.search("// (.* of a block .*)", line))]
        status, told, said = run([FIND, "--asan", program], cwd=PROGRAMS)
        # AddressSanitizer takes a realloc for a free
        wanted = [(number, says.replace("realloc of", "free of")) for number, says in wanted]
        seen = re.findall(r"(?m)^mismatches\.cpp:(\d+) in main: (.*)\n    not caught: the heap has one free", told)
        expect("mismatches under --asan", status == 1 and len(wanted) == 7 and seen == wanted, seen, told, said)

    def test_job(self):
        """The job of examples/build/sanitizer.yml, as written, but for the package that it unpacks."""
        folder, tools = os.path.join(self.work, "job"), os.path.join(self.work, "tools")
        os.mkdir(folder), os.mkdir(tools)
        os.symlink(FIND, os.path.join(tools, "mte_find_faults"))
        text = Path(EXAMPLES, "build", "sanitizer.yml").read_text()
        environment = {**os.environ, **workflow.settings(text), "PATH": f"{tools}:{os.environ['PATH']}"}
        for name, status in (("right_list.c", 0), ("cwe122_strcpy.c", 1)):
            shutil.copy(os.path.join(ERRORS, name), os.path.join(folder, "app.c"))
            rules = "check: app\n\t./app\n.PHONY: app\napp:\n\t$(CC) $(CFLAGS) $(LDFLAGS) app.c -o app\n"
            Path(folder, "Makefile").write_text(rules)
            done = workflow.run(workflow.scripts(text)[-1], folder, environment)
            has_line = f"\n::error file=app.c,line={Example('cwe122_strcpy.c').wrong[0]}," in done.stdout
            good = done.returncode == status and has_line == bool(status)
            expect(f"the job of sanitizer.yml: {name}", good, done.stdout)

    def test_refused(self):
        status, told, said = run([FIND, "--asan", "true"])
        good = status == 3 and not told and "built with -fsanitize=address" in said
        expect("a program without AddressSanitizer", good, status, told, said)
        for other in ("--children", "--unfreed"):
            status, told, said = run([FIND, "--asan", other, "true"])
            expect(f"--asan {other}", status == 2 and not told, status, told, said)


def add_options(parser):
    parser.add_argument("--all", action="store_true", help="try all programs of examples/errors: some minutes")


if __name__ == "__main__":
    checks.main()
