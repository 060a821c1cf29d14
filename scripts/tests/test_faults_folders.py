"""Tests that no other user can have a file of yours changed or removed by find_faults, by the compilers of its runtime, or by the log that the
runtime writes; see folders."""

import os

import checks
from checks import expect
from folder_races import AS_ROOT, SCRIPTS, files_below, homes_of_others, make_folder, race_runtime, race_scripts, run, tools, variables
from mte_scripts.faults import compiler_driver, fault_report, heap_answers

# what the scripts import, so that a run of one here does not read it anew
READ = (fault_report, heap_answers)
PIECE = 12 << 10  # by which a log grows first
USE_C = """#include <stdio.h>
#include <stdlib.h>
#include <string.h>
#include <unistd.h>
int main(int words, char **word) {
  if (words > 3 && (rename(word[1], word[2]) || link(word[3], word[1]))) return 1;
  if (words > 1 && chdir("/")) return 1;
  for (int i = 0; i < (words > 1 ? 300000 : 300); i++) {
    char *volatile p = malloc(8);
    *p = 1;
    free(p);
  }
  return 0;
}
"""


def try_no_home(work):
    """What traced_cc says where its runtime has no place."""
    make_folder(f"{work}/open", 0o777)
    plain = {name: value for name, value in os.environ.items() if name not in ("HOME", "XDG_CACHE_HOME")}
    for given, says in (({}, "HOME is not set"), ({"HOME": "x"}, "HOME is no absolute path"), ({"HOME": f"{work}/open"}, f"others can change {work}/open")):
        status, _, said = run([f"{SCRIPTS}/traced_cc", "x.c"], env={**plain, **given})
        wanted = f"traced_cc: the runtime has no place: {says}: set XDG_CACHE_HOME to a folder that only you can change\n"
        expect(f"traced_cc with {given}", (status, said) == (3, wanted), status, said)


def try_logs(work, use):
    """A log grows in its own file, and in no other that has its name then; also where the program goes to another folder."""
    place = make_folder(f"{work}/logs")
    log, moved, other = f"{place}/log", f"{place}/moved", f"{place}/other"
    with open(other, "w") as file:
        file.write("kept\n")
    status, _, said = run([use, log, moved, other], env={**os.environ, "ACCESSES": log})
    with open(other) as file:
        expect("a log whose name another file has", status == 0 and file.read() == "kept\n" and os.path.getsize(moved) == PIECE, status, said)
    os.remove(other), os.remove(log), os.remove(moved)
    status, _, said = run([use, "more"], env={**os.environ, "ACCESSES": "log"}, cwd=place)
    expect("a log with a relative name", status == 0 and os.path.getsize(log) >= 2 * PIECE, status, said, os.path.getsize(log))
    status, _, said = run([use], env={**os.environ, "ACCESSES": make_folder(f"{place}/open", 0o777) + "/log"})
    expect("a log in a folder that others can change", status == 0 and "others can change its folder" in said and not os.listdir(f"{place}/open"), said)
    os.symlink(f"{place}/none", f"{place}/a_link")
    run([use], env={**os.environ, "ACCESSES": f"{place}/a_link"})
    expect("a log in the place of a link", not os.path.exists(f"{place}/none"))


def try_homes(work):
    """Another user's home, also by a link of his, is left as it is."""
    home, variables_of = homes_of_others(work)
    for given in variables_of:
        with variables(**given):
            for name in ("traced_cc", "traced_c++"):
                status, _, said = run([f"{SCRIPTS}/{name}", "x.c"])
                expect(f"{name} with {given}", status == 3 and "others can change" in said and not os.listdir(home), status, said, files_below(home))


def race_find_faults(work, use):
    """The compiler of a heap's reader makes one that fails."""
    compiler = 'for last; do :; done; cp /bin/false "$last"'
    given = {"PATH": f"{tools(work, gcc=compiler)}:{os.environ['PATH']}", "MTE_LIBRARY": f"{work}/heap"}
    with open(f"{make_folder(make_folder(given['MTE_LIBRARY']) + '/lib')}/libmte_tool.a", "w"), variables(**given):
        status, _, said = run([f"{SCRIPTS}/find_faults", use])
    expect("find_faults runs a program, and its reader fails", status == 3 and "the log can't be told" in said, status, said)
    race_scripts(work, [["find_faults", use]], given)


class Folders(checks.Part):
    """`use` is a program that traced_cc built."""

    @classmethod
    def setup_class(cls):
        checks.need("cc", "the folders of find_faults")
        cls.work = cls.folder()
        os.chmod(cls.work, 0o755)
        os.environ["XDG_CACHE_HOME"] = make_folder(f"{cls.work}/cache")
        with open(f"{cls.work}/use.c", "w") as file:
            file.write(USE_C)
        cls.use = f"{cls.work}/use"
        status, _, said = run([f"{SCRIPTS}/traced_cc", f"{cls.work}/use.c", "-o", cls.use])
        expect("traced_cc", status == 0, status, said)

    def test_compiler(self):
        """A compiler is found in each folder of PATH, in their order, and a file that can't be run is none."""
        folders = [make_folder(f"{self.work}/{name}") for name in ("first", "second", "third")]
        for folder, mode in zip(folders, (0o644, 0o755, 0o755)):
            with open(f"{folder}/own-cc", "w", opener=lambda path, flags: os.open(path, flags, mode)) as file:
                file.write("#!/bin/sh\n")
        with variables(PATH=":".join(folders), TRACED_CC=None):
            expect(
                "by its name",
                compiler_driver.find_program("own-cc") == f"{folders[1]}/own-cc",
                compiler_driver.find_program("own-cc"),
            )
            expect(
                "the first that is there",
                compiler_driver.find_compiler("TRACED_CC", "none-cc", "own-cc") == f"{folders[1]}/own-cc",
            )
            expect("by its path", compiler_driver.find_program(f"{folders[2]}/own-cc") == f"{folders[2]}/own-cc")
            expect("none", compiler_driver.find_program("none-cc") is None)

    def test_no_home(self):
        try_no_home(self.work)

    def test_logs(self):
        try_logs(self.work, self.use)

    @AS_ROOT
    def test_homes(self):
        try_homes(self.work)

    @AS_ROOT
    def test_race_runtime(self):
        race_runtime(self.work, "ACCESSES", "log", self.use, {})

    @AS_ROOT
    def test_race_scripts(self):
        race_find_faults(self.work, self.use)
