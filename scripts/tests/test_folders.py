"""Tests that no other user can have a file of yours changed or removed by a script's temporary folder, its cache, or what it records. As
root, a second user races: he moves away what appears in a folder that both may write to, and puts links to your files in its place. A line
for each failure, and for what is skipped."""

import contextlib
import glob
import os
import re
import shutil
import sys

import checks
from checks import expect
from folder_races import (
    AS_ROOT, OTHER, PLAIN, ROOT, SCRIPTS, become, files_below, homes_of_others, make_folder, race_runtime, race_scripts, repeat_attack, refusal_of, run, swap, tools, turn,
    variables, victims,
)  # fmt: skip
from mte_scripts import private_folder, text_files
from mte_scripts.builds import web_page
from mte_scripts.entry_point import Refusal
from mte_scripts.recording import notes, recording

# what the scripts import, so that a run of one here does not read it anew
READ = (notes, recording, web_page)


# ---- the module, alone

def try_module(work):
    safe, unsafe, sticky = make_folder(f"{work}/safe"), make_folder(f"{work}/unsafe", 0o777), make_folder(f"{work}/sticky", 0o1777)
    group = make_folder(f"{work}/group", 0o775)
    os.symlink("safe", f"{work}/link")
    os.symlink("unsafe/../safe", f"{work}/through")
    os.symlink("loop", f"{work}/loop")
    os.symlink(f"{work}/link/../sticky", f"{work}/far")
    for path, real in ((safe, safe), (sticky, sticky), (f"{work}/link", safe), (f"{work}/far/.//", sticky), (f"{sticky}/../safe", safe)):
        with private_folder.open_folder(path) as place:
            expect(f"a folder without links: {path}", place.path == real, place.path)
    for path in (unsafe, group, f"{unsafe}/../safe", f"{work}/through", f"{work}/loop", f"{work}/none", f"{work}/safe/none/.."):
        expect(f"refused: {path}", refusal_of(private_folder.open_folder, path))
    expect(
        "a folder that others can fill is not closed",
        refusal_of(private_folder.open_private_folder, sticky)
        and not refusal_of(private_folder.open_private_folder, safe),
    )
    try_temporary(unsafe, group, sticky, safe, work)
    for given, says in (({"HOME": None}, "HOME is not set"), ({"HOME": "home"}, "no absolute path"), ({"HOME": unsafe}, "others can change"),
                        ({"HOME": __file__}, "can't be made"), ({"XDG_CACHE_HOME": f"{work}/through/c"}, f"others can change {unsafe}")):
        with variables(**{"XDG_CACHE_HOME": None, **given}):
            why = refusal_of(private_folder.cache)
            expect(f"the cache of {given}", why and says in why, why)
    try_output(safe, unsafe)
    expect("nothing is made in a folder that others can change", not os.listdir(unsafe) and not os.listdir(safe), os.listdir(unsafe))
    with variables(HOME=f"{work}/link/a home", XDG_CACHE_HOME=None), private_folder.cache("below") as place:
        expect("a cache", place.path == f"{safe}/a home/.cache/mte_tool/below" and os.stat(place.path).st_mode & 0o777 == 0o700, place.path)


def try_temporary(unsafe, group, sticky, safe, work):
    """Where a temporary folder is made, and that what it is called by then is not removed."""
    for where in (unsafe, group):
        with variables(TMPDIR=where):
            why = refusal_of(private_folder.temporary_folder)
            expect(f"TMPDIR={where}", why and where in why and "only you can change" in why and "set TMPDIR" in why, why)
    for where in (sticky, safe):
        with variables(TMPDIR=where), private_folder.temporary_folder() as folder:
            status = os.stat(folder.path)
            expect(f"TMPDIR={where}", os.path.dirname(folder.path) == where and status.st_mode & 0o7777 == 0o700, folder.path)
            for name in ("a", "a/b"):
                os.mkdir(folder.file(name))
            os.symlink(safe, folder.file("a/link"))
            with open(folder.file("a/b/file"), "w") as file:
                file.write("text")
        expect(f"removed: {where}", not os.path.lexists(folder.path) and os.path.isdir(safe) and os.listdir(where) == [])
    with variables(TMPDIR=f"{work}/none"), private_folder.temporary() as path:
        expect("a TMPDIR that is missing", path.startswith("/tmp/"), path)
    with variables(TMPDIR=safe):
        folder = private_folder.temporary_folder()
        os.rename(folder.path, f"{work}/moved")
        with open(make_folder(folder.path) + "/other", "w") as file:
            file.write("text")
        folder.close()
        expect("what has its name now is not removed", os.path.exists(folder.path + "/other"), os.listdir(safe))
        shutil.rmtree(folder.path)


def try_output(safe, unsafe):
    """A folder to be filled may be where others can change the way to it."""
    with open(make_folder(f"{safe}/from") + "/log", "w") as file:
        file.write("text")
    for path in (f"{unsafe}/above/out", f"{safe}/out", f"{safe}/out"):
        with private_folder.output(path) as place:
            why = refusal_of(place.fill, f"{safe}/from")
        expect(f"filled: {path}", os.listdir(path) == ["log"] and os.stat(path).st_mode & 0o022 == 0, os.listdir(path))
    expect("a file that is there is not written to", why)
    os.symlink(f"{safe}/from", f"{unsafe}/link")
    expect("a link in the place of the folder", refusal_of(private_folder.output, f"{unsafe}/link"))
    with private_folder.output(f"{unsafe}/new", is_new=True) as place:
        os.rename(f"{unsafe}/new", f"{unsafe}/moved")
        os.symlink(f"{safe}/from", f"{unsafe}/new")
        place.write("log", b"other")
        place.make_below(["a", "b"])
        place.write("a/b/log", b"other")
        with open(place.at("log")) as own, open(f"{safe}/from/log") as other:
            expect("a new folder that others move is written to where it is", (own.read(), other.read()) == ("other", "text"))
    expect("its files", sorted(os.listdir(f"{unsafe}/moved")) == ["a", "log"] and os.listdir(f"{safe}/from") == ["log"], os.listdir(f"{safe}/from"))
    for path in (f"{unsafe}/moved", f"{unsafe}/new"):
        with contextlib.suppress(FileExistsError):
            expect(f"no new folder: {path}", private_folder.output(path, is_new=True) is None)
    for path in ("/", "//", f"{safe}/from/.."):
        why = refusal_of(text_files.new_folder, path, "--output")
        expect(f"a new folder in the place of {path}", why == f"{path} is there already: name another folder by --output", why)
    shutil.rmtree(f"{unsafe}/above"), os.remove(f"{unsafe}/link"), shutil.rmtree(f"{safe}/out"), shutil.rmtree(f"{safe}/from")
    shutil.rmtree(f"{unsafe}/moved"), os.remove(f"{unsafe}/new")


def try_shell(work):
    """What the shell scripts call, and that no script makes a temporary folder otherwise."""
    words = [os.path.join(ROOT, "scripts/step"), "private_folder"]
    folder = run([*words, "make", "a_script"])[1].strip()
    expect("make", os.path.isdir(folder), folder)
    os.symlink(work, f"{folder}/link")
    expect("remove", run([*words, "remove", "a_script", folder])[0] == 0 and not os.path.exists(folder) and os.path.isdir(work))
    status, _, said = run([*words, "make", "a_script"], env={**os.environ, "TMPDIR": make_folder(f"{work}/open", 0o777)})
    expect("make in a folder that others can change", status == 3 and said.startswith("a_script: no folder can be made in "), status, said)
    for path in sorted(glob.glob(f"{SCRIPTS}/*") + glob.glob(f"{SCRIPTS}/mte_scripts/**/*.py", recursive=True) + glob.glob(f"{ROOT}/.ci/*")):
        if os.path.isfile(path):
            with open(path, encoding="utf-8") as file:
                found = re.findall(r"\bmktemp\b|\bmkdtemp\b|\bmkstemp\b|TemporaryDirectory|NamedTemporaryFile", file.read())
            expect(f"{path} makes its temporary files by private_folder", not found, found)


# ---- the recorder's runtime, alone

def try_streams(work, library):
    """A file that others could change, or that is no stream, is left as it is; and so is one that a stream's name leads to."""
    place = make_folder(f"{work}/streams")
    for name, says in (("link", "levels of symbolic links"), ("written", "others can change it"), ("two", "it has another name too"), ("none", "No such file"),
                       ("small", "it is another file"), ("large", "it is another file"), ("another", "it is another user's file")):
        shutil.rmtree(place)
        make_folder(place)
        for each in ("written", "two", "large", "another"):
            with open(f"{place}/{each}", "w") as file:
                file.truncate(1 << 22)
        open(f"{place}/small", "w").close()
        os.chmod(f"{place}/written", 0o666)
        os.chown(f"{place}/another", OTHER, OTHER)
        os.link(f"{place}/two", f"{place}/one")
        os.symlink(f"{place}/large", f"{place}/link")
        was = files_below(place)
        said = run(["ls", "/"], env={**os.environ, "MTE_STREAM": f"{place}/{name}", "LD_PRELOAD": library})[2]
        expect(f"a stream in {name}", says in said and said.count("\n") == 1 and files_below(place) == was, said)
    for name in ("one", "link"):
        status, _, said = run([f"{SCRIPTS}/profile_program", "--follow", f"{place}/{name}"])
        expect(f"--follow {name}", status == 3 and "File exists" in said and files_below(place) == was, status, said)


# ---- outputs beside what is printed, which the words name

def try_output_files(work):
    """What another user put in the place of a file is neither written to nor followed, where others can change the folder."""
    victim, sticky, own = victims(work), make_folder(f"{work}/outputs", 0o1777), make_folder(f"{work}/own")
    his = make_folder(f"{work}/his", 0o1777, OTHER)
    was = files_below(victim)
    for where in (sticky, own, his):
        os.symlink(f"{victim}/log", f"{where}/link"), os.mkfifo(f"{where}/pipe"), open(f"{where}/file", "w").close()
        for name in ("link", "pipe", "file"):
            os.lchown(f"{where}/{name}", OTHER, OTHER)
    os.symlink("link", f"{sticky}/chain")
    for name in ("link", "pipe", "file", "chain"):
        why = refusal_of(text_files.write_file, f"{sticky}/{name}", "text")
        expect(f"another user's {name} in a folder of all", why and "another user has put" in why and f"{sticky}/{name} " in why, why)
    expect("what it led to", files_below(victim) == was and not os.path.getsize(f"{sticky}/file"))
    status, out, said = run([f"{SCRIPTS}/profile_program", "--history", "--peak", f"{sticky}/link", "ls", "/"])
    expect("profile_program --peak", status == 3 and "another user has put" in said and files_below(victim) == was, status, said)
    os.symlink("../own/new", f"{sticky}/ahead"), os.symlink("loop", f"{sticky}/loop")
    for path, at in ((f"{sticky}/new", f"{sticky}/new"), (f"{sticky}/ahead", f"{own}/new"), (f"{sticky}/ahead", f"{own}/new"),
                     (f"{own}/file", f"{own}/file"), (f"{his}/file", f"{his}/file"), (f"{own}/link", f"{victim}/log")):
        text_files.write_file(path, "long text"), text_files.write_file(path, "text")
        with open(at) as file:
            expect(f"written by {path}", file.read() == "text")
    text_files.write_file("/dev/null", "text")
    for path in (f"{sticky}/loop", sticky, f"{own}/none/file", "", "/"):
        expect(f"no file: {path}", refusal_of(text_files.write_file, path, "text"))
    for option in ("/dev/stdout", "/dev/fd/1", "/proc/self/fd/1"):
        status, out, said = run([f"{SCRIPTS}/profile_program", "--history", "--peak", option, "ls", "/"])
        expect(f"--peak {option}", status == 0 and re.search(r"\n(large|\d+) \d+\n\Z", out), status, out[-80:], said)


def race_output_files(work):
    """The same, while the second user puts links in the place of what is there."""
    for where, mode, attack in (("shared", 0o777, (swap, "file")), ("sticky_race", 0o1777, (turn,))):
        folder, victim = make_folder(f"{work}/{where}", mode), victims(work)
        was = files_below(victim)
        with repeat_attack(attack[0], folder, victim, *attack[1:]):
            for _ in range(600):
                with contextlib.suppress(Refusal):
                    text_files.write_file(f"{folder}/log", "text")
        expect(f"outputs, {where}: what the second user points to is as it was", files_below(victim) == was, files_below(victim))
        shutil.rmtree(folder)


# ---- the race

def try_plain_user(work):
    """The module where the user is not root."""
    place = make_folder(f"{work}/plain", 0o755, PLAIN)
    others = make_folder(f"{work}/others", 0o755, OTHER)
    process = os.fork()
    if process == 0:
        checks.failed = 0
        try:
            become(PLAIN)
            try_module(make_folder(f"{place}/module"))
            for path in (others, f"{others}/.."):
                expect(f"a plain user: refused: {path}", refusal_of(private_folder.open_folder, path))
            with variables(HOME=others, XDG_CACHE_HOME=None):
                why = refusal_of(private_folder.cache)
                expect("a plain user: another user's home", why == f"others can change {others}", why)
        finally:
            print(*checks.lines, sep="\n", flush=True)
            os._exit(bool(checks.failed) or sys.exc_info()[0] is not None)
    expect("as a plain user", os.waitstatus_to_exitcode(os.waitpid(process, 0)[1]) == 0)


def race_module(work):
    """The module that the others call, much faster: in a folder that the second user can write to, and along a way that he turns."""
    victim, shared, sticky = victims(work), make_folder(f"{work}/shared", 0o777), make_folder(f"{work}/sticky_race", 0o1777)
    was = files_below(victim)
    for where, attack in ((shared, (swap, shared, victim)), (f"{sticky}/way", (turn, sticky, victim))):
        with variables(TMPDIR=where), repeat_attack(*attack):
            for _ in range(2_000):
                with contextlib.suppress(Refusal):
                    with private_folder.temporary_folder() as folder:
                        with open(folder.file("log"), "x") as file:
                            file.write("text")
        expect(f"private_folder, TMPDIR={where}: what the second user points to is as it was", files_below(victim) == was, files_below(victim))
    with variables(TMPDIR=sticky), repeat_attack(swap, sticky, victim):
        for _ in range(2_000):
            with private_folder.temporary_folder() as folder:
                with open(folder.file("log"), "x") as file:
                    file.write("text")
    left = [name for name in os.listdir(sticky) if os.lstat(f"{sticky}/{name}").st_uid != OTHER]
    expect("private_folder, with the sticky bit: as it was", files_below(victim) == was and not left, left)
    shutil.rmtree(shared), shutil.rmtree(sticky)


def try_homes(work):
    """Another user's home, also by a link of his, is left as it is."""
    home, variables_of = homes_of_others(work)
    compiler = checks.copying_compiler(f"{work}/copies", os.environ["XDG_CACHE_HOME"])
    for given in variables_of:
        with variables(**given, CC=compiler):
            for words in (["profile_program", "ls", "/"], ["trace_program", "ls", "/"]):
                status, out, said = run([f"{SCRIPTS}/{words[0]}", *words[1:]])
                expect(f"{words[0]} with {given}", status == 0 and out and not os.listdir(home), status, said, files_below(home))


class Folders(checks.Part):
    """Of the scripts, and of the recorders."""

    @classmethod
    def setup_class(cls):
        checks.need("cc", "the folders of the scripts")
        cls.work = cls.folder()
        os.chmod(cls.work, 0o755)
        cache = os.environ["XDG_CACHE_HOME"] = make_folder(f"{cls.work}/cache")
        for name in ("profile_program", "trace_program"):
            status, _, said = run([f"{SCRIPTS}/{name}", "ls", "/"])
            expect(name, status == 0, status, said)
        kept = os.listdir(f"{cache}/mte_tool")
        cls.library = next(f"{cache}/mte_tool/{name}" for name in kept if name.startswith("stream"))

    def test_module(self):
        try_module(make_folder(f"{self.work}/module"))

    def test_shell(self):
        try_shell(self.work)

    @AS_ROOT
    def test_streams(self):
        try_streams(self.work, self.library)

    @AS_ROOT
    def test_outputs(self):
        try_output_files(self.work)

    @AS_ROOT
    def test_race_outputs(self):
        race_output_files(self.work)

    @AS_ROOT
    def test_homes(self):
        try_homes(self.work)

    @AS_ROOT
    def test_plain_user(self):
        try_plain_user(self.work)

    @AS_ROOT
    def test_race_module(self):
        race_module(self.work)

    @AS_ROOT
    def test_race_runtime(self):
        race_runtime(self.work, "MTE_STREAM", "counts", shutil.which("ls"), {"LD_PRELOAD": self.library})

    @AS_ROOT
    def test_race_scripts(self):
        # a toolchain that does nothing
        given = {"PATH": f"{tools(self.work, rt='sleep 0.01')}:{os.environ['PATH']}"}
        commands = [["profile_program", "true"], ["trace_program", "true"], ["mte_tool", "--unproved", "score"], ["library", f"{self.work}/library"]]
        race_scripts(self.work, commands, given)
