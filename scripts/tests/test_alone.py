"""Tests that each part of the scripts that stands alone (parts_alone.py) can be deleted by itself: in a copy without it all other modules are
imported, what the other commands run is found, and so are the other tests, and what asks for the part says that it is not there. The other
tests run there by `alone_tests`."""

import os
import shutil
import subprocess

import checks
import parts_alone
from checks import expect
from mte_scripts.places import ROOT
from python_sources import imports_of, parts_asked, python_files, run_by, tracked_files, tree_of

# the part that is asked for, and the status, the error and the words of a command that asks
ASKED = (
    ("importers", 3, "is not here", "profile_program", "--import", "examples/jq.profile"),
    ("importers", 3, "is not here", "profile_program", "--timeline", "--as", "dhat", "--import", "examples/jq.profile"),
    ("importers", 3, "run the program itself", "tune_program", "--who", "--read", "examples/jq.profile"),
)
# takes functions or other members of modules
IMPORT = (
    "import sys; sys.path.insert(0, 'scripts'); from mte_scripts import entry_point; "
    "[entry_point.import_function(name) for name in sys.argv[1:]]"
)


def module_of(path):
    """The name by which a file of Python, or a folder of such files, is imported."""
    return path.removeprefix("scripts/tests/").removeprefix("scripts/").removesuffix(".py").removesuffix("/__init__").replace("/", ".")


class Parts(checks.Part):
    def test_paths(self):
        """A part is whole, or it is gone; and all of it is the part's alone."""
        for name, part in parts_alone.PARTS.items():
            missing = [path for path in part.paths() if os.path.exists(os.path.join(ROOT, path)) != part.is_there()]
            expect(f"the part {name}: what is there without the rest, or missing", not missing, *missing)
            for path in part.paths():
                expect(f"{path} is of one part", [other for other, each in parts_alone.PARTS.items() if each.has(path)] == [name])

    def test_imports(self):
        """Nothing else imports a module of a part; who asks for one asks for a module that the part has."""
        trees = {name: tree_of(name) for name in python_files()}
        for name, part in parts_alone.PARTS.items():
            modules = tuple(f"{module_of(path)}." for path in part.paths() if path.endswith(".py") or path == part.modules)
            found = [path for path, tree in trees.items() if not part.has(path) and any(f"{each}.".startswith(modules) for each in imports_of(tree))]
            expect(f"what imports the part {name}", not found, *found)
        for path, asked in ((path, asked) for path, tree in trees.items() for asked in parts_asked(tree)):
            module = f"scripts/mte_scripts/{asked.replace('.', '/')}.py"
            owners = [part for part in parts_alone.PARTS.values() if part.has(module)]
            is_right = len(owners) == 1 and not owners[0].has(path) and os.path.isfile(os.path.join(ROOT, module)) == owners[0].is_there()
            expect(f"{path} asks for {asked}, a module of a part", is_right, owners)


class Copies(checks.Part):
    def run_in(self, place, *words):
        done = subprocess.run(words, cwd=place, stdin=subprocess.DEVNULL, stdout=subprocess.PIPE, stderr=subprocess.PIPE, text=True)
        return done.returncode, done.stdout, done.stderr

    def test_copies(self):
        files = [name for name in tracked_files() if name.startswith(("scripts/", "examples/"))]
        for name, part in parts_alone.PARTS.items():
            if part.is_there():
                place = os.path.join(self.folder(), name)
                parts_alone.copy_without(part, files, place)
                self.works(name, part, [path for path in files if not part.has(path)], place)
                shutil.rmtree(place)

    def works(self, name, part, files, place):
        modules = [module_of(path).partition(".")[2] for path in files if path.startswith("scripts/mte_scripts/") and path.endswith(".py")]
        modules = [f"{module}.__doc__" for module in modules if module]
        called = [each for path in python_files() if os.path.dirname(path) == "scripts" and path in files for each in run_by(tree_of(path))]
        status, _, said = self.run_in(place, "python3", "-B", "-c", IMPORT, *called, *modules)
        expect(f"without {name}: {len(called)} commands and {len(modules)} modules", status == 0 and called and len(modules) > 50, status, said)
        status, out, said = self.run_in(place, "scripts/tests/all", "--help")
        tests = [each[5:-3] for each in part.tests.split() if each.startswith("test_")]
        expect(f"without {name}: the other tests", status == 0 and not {*tests} & {*out.split()} and "launcher" in out, status, said)
        for asked, wanted, says, command, *words in ASKED:
            if asked == name:
                status, _, said = self.run_in(place, f"scripts/{command}", *words)
                expect(f"without {name}: {command} {' '.join(words)}", status == wanted and says in said, status, said)
