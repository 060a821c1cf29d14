#!/usr/bin/env -S python3 -B
"""Tests the packages of scripts/package and scripts/release: two folders of one commit give the same bytes, and what is in them serves a
user who has neither the kit nor the repository. It needs no root and no network: the packages are unpacked into a folder, and used there.
As root, dpkg installs them there and removes them.

  package                     the tests
  package --chroot FOLDER     makes a clean Debian in FOLDER, by mmdebstrap, as root and from Debian's mirror; installs the packages there
                              by apt, takes a redis-server to its table, and builds callers in five languages

MTE_TOOL names the program to pack, MTE_LIBRARY the folder of scripts/library, and MTE_PAGE what scripts/page printed. Without the last two
they are made, where nothing has to be proved for it."""

import datetime
import filecmp
import os
import re
import shutil
import subprocess
import sys
import tempfile
import zipfile
from collections import namedtuple
from unittest import mock
from pathlib import Path

import checks
import clean_debian
import package_callers
import postgresql
import pytest
import workflow
from checks import expect, skip, skip_without
from mte_scripts import engines, helps, manifest
from mte_scripts.builds import static_libraries, web_page
from mte_scripts.packaging import machines, packaging, provenance, versions
from mte_scripts.packaging.tree import Tree, tracked_files

ROOT = os.path.dirname(os.path.dirname(os.path.dirname(os.path.realpath(__file__))))

PROGRAM = os.environ.get("MTE_TOOL", f"{ROOT}/crates/mte_tool/out/mte_tool")
# a program that was built elsewhere may have no manifest, and then nothing is proved of the packed one
IS_PROVED = os.path.isfile(PROGRAM) and not manifest.why_unproved(PROGRAM, ROOT)
SECONDS = 600


def run_command(words, **given):
    given.setdefault("stdin", None if "input" in given else subprocess.DEVNULL)
    if "input" in given:
        del given["stdin"]
    return subprocess.run(words, capture_output=True, timeout=SECONDS, **given)


def read(path):
    return Path(path).read_bytes()


# ---- the packages

Inputs = namedtuple("Inputs", "words library page made")


def parts(work):
    """The options that hand over the library and the page, where they can be had without a proof."""
    words = ["--program", PROGRAM]
    library, page = os.environ.get("MTE_LIBRARY"), os.environ.get("MTE_PAGE")
    if not library and shutil.which("rt") and shutil.which("cc") and static_libraries.is_cheap("mte_c"):
        library = f"{work}/library"
        expect("scripts/library builds the library", run_command([f"{ROOT}/scripts/library", library]).returncode == 0)
        expect("the library is known to be proved", not packaging.library_unproved(library), packaging.library_unproved(library))
    if not page and web_page.at_hand():
        page = f"{work}/page.html"
        Path(page).write_text(web_page.page(web_page.at_hand()), encoding="utf-8")
    for name, value, how in (("library", library, "scripts/library"), ("page", page, "scripts/page")):
        if not value:
            skip(f"since it is not kept ({how} keeps it): the {name} in the package")
        words += [f"--{name}", value] if value else [f"--no-{name}"]
    return words, library, page


def another_folder(folder):
    """The same commit, with the same changes, in another folder."""
    run_command(["git", "clone", "-q", ROOT, folder], check=True)
    for name in tracked_files():
        if not os.path.islink(f"{ROOT}/{name}"):
            os.makedirs(os.path.dirname(f"{folder}/{name}"), exist_ok=True)
            shutil.copy2(f"{ROOT}/{name}", f"{folder}/{name}")
    return folder


class PackageFiles:
    """The packages in a folder."""

    def __init__(self, paths):
        self.all = sorted(paths)
        self.tar = self.ending("-x86_64-linux.tar.gz")[0]
        self.debs = {os.path.basename(path).partition("_")[0]: path for path in self.ending(".deb")}
        self.wheel = (self.ending(".whl") or [None])[0]
        self.crates = self.ending(".crate")

    def ending(self, suffix):
        return [path for path in self.all if path.endswith(suffix)]

    def library(self):
        """The name of the Debian package of the shared library, if there is one."""
        return next((name for name in self.debs if re.fullmatch(r"libmte-tool\d+", name)), None)


def build(root, words, to, **more):
    made = run_command([f"{root}/scripts/package", *words, to], **more)
    expect(f"scripts/package: {made.returncode} {made.stderr[-600:].decode()}", made.returncode == 0)
    return PackageFiles(made.stdout.decode().split("\n")[:-1]), made.stderr.decode()


def try_same_bytes(words, work):
    """Two builds, the second in another folder, zone, language and mask of modes."""
    first, said = build(ROOT, words, f"{work}/first")
    other = {**os.environ, "TZ": "Pacific/Auckland", "LC_ALL": "C", "TMPDIR": f"{work}/temporary"}
    os.mkdir(f"{work}/temporary")
    clone = another_folder(f"{work}/a folder/of another name")
    second, _ = build(clone, words, f"{work}/second", env=other, preexec_fn=lambda: os.umask(0o077))
    names = [[os.path.basename(path) for path in made.all] for made in (first, second)]
    expect("the same packages are made", names[0] == names[1], *names)
    for one, two in zip(first.all, second.all):
        expect(f"two folders give the same bytes: {os.path.basename(one)}", filecmp.cmp(one, two, shallow=False))
    for word in ("library", "page"):
        expect(f"what is left out is said: {said}", (f"left out: the {word}" in said) == (f"--no-{word}" in words))
    return first


@pytest.fixture(scope="module")
def inputs(place):
    """The words by which the packages are made, the library and the page; and the packages."""
    if not os.access(PROGRAM, os.X_OK):
        pytest.skip(f"since the program is not built (scripts/mte_tool --prove builds it): the packages, {PROGRAM}")
    checks.need("git strip readelf", "the packages")
    if run_command(["git", "-C", ROOT, "rev-parse", "HEAD"]).returncode:
        pytest.skip("without a repository of git: the packages")
    os.environ.pop("MTE_TOOL", None)
    words, library, page = parts(place)
    return Inputs(words, library, page, try_same_bytes(words, place))


@pytest.fixture(scope="module")
def packages(inputs):
    return inputs.made


@pytest.fixture(scope="module")
def user(packages, place):
    user = User(unpack_packages(packages, place), place)
    if shutil.which("rt", path=user.path):
        skip("since the kit's rt is in /usr/bin: that no kit is needed")
    return user


@pytest.fixture(scope="module")
def commit():
    return run_command(["git", "-C", ROOT, "rev-parse", "HEAD"]).stdout.decode().strip()


def test_kinds(packages, inputs):
    """All packages are there that can be made."""
    debs = {"mte-tool"} if shutil.which("dpkg-deb") else set()
    if inputs.library:
        debs |= {"libmte-tool-dev", packages.library()} if debs else set()
        expect("a wheel and two crates", packages.wheel and len(packages.crates) == 2, packages.all)
    expect("the Debian packages", set(packages.debs) == debs, packages.debs, debs)
    if not skip_without("dpkg-deb", "the fields of the Debian packages"):
        fields = {name: run_command(["dpkg-deb", "-f", path]).stdout.decode() for name, path in packages.debs.items()}
        for name, text in fields.items():
            expect(f"{name} may be there for two architectures", ("Multi-Arch: same\n" in text) == (name != "mte-tool"), text)
            expect(f"{name} names its sources", ("Source: mte-tool\n" in text) == (name != "mte-tool"), text)
        if inputs.library:
            version = re.search(r"(?m)^Version: (.*)$", fields["libmte-tool-dev"])[1]
            expect("the headers want their library", f"Depends: {packages.library()} (= {version})\n" in fields["libmte-tool-dev"])


def test_words(inputs, work):
    run = lambda *words, **more: run_command([f"{ROOT}/scripts/package", *words], **more)
    expect("package --help", run("--help").stdout.startswith(b"Make the packages"))
    for words in ([], ["--wrong"], ["a", "b"], ["--program"], ["--page", "x", "--no-page", "a"], ["--program", "/bin/true", f"{work}/no"],
                  ["--program", PROGRAM, "--library", work, "--no-page", f"{work}/no"], ["--maintainer", "me", f"{work}/no"],
                  ["--program", PROGRAM, "--no-library", "--page", f"{ROOT}/README.md", f"{work}/no"], ["--machine", "sparc", f"{work}/no"],
                  ["--modules", "--program", PROGRAM, f"{work}/no"],
                  ["--machine", machines.OTHERS[0].name, "--library", work, f"{work}/no"]):
        made = run(*words)
        expect(f"package {words} is refused: {made}", made.returncode == 2 and made.stderr and not made.stdout)
    made = run(f"{work}/no", env={**os.environ, "MTE_TOOL": "/bin/true"})
    expect(f"package packs no program of MTE_TOOL: {made}", made.returncode == 2 and b"MTE_TOOL" in made.stderr)


def test_lintian(packages):
    if skip_without("lintian", "the rules of Debian"):
        return
    said = run_command(["lintian", "--allow-root", "--fail-on", "error,warning", *packages.debs.values()])
    found = re.findall(r"(?m)^[EW]: .*", said.stdout.decode())
    for name in packages.debs:
        own = [line for line in found if line[3:].startswith(f"{name}: ")]
        expect(f"lintian of {name}", not own, *own)
    expect("lintian reads them", said.returncode == 0 or found, said.stderr.decode())


def unpack_packages(packages, work):
    """The tree of the Debian packages, or of the tar where there is no dpkg; the two have the same files."""
    run_command(["tar", "-xf", packages.tar, "-C", work], check=True)
    tar = f"{work}/{os.path.basename(packages.tar).removesuffix('-x86_64-linux.tar.gz')}"
    root = f"{work}/root"
    expect("the tar has the licence", read(f"{tar}/LICENSE") == read(f"{ROOT}/LICENSE"))
    if not packages.debs or skip_without("dpkg", "the Debian packages, unpacked"):
        os.mkdir(root)
        shutil.copytree(tar, f"{root}/usr", symlinks=True)
        return root
    install(packages, root)
    own = re.compile(r"LICENSE|(share|lib)|share/lintian(/.*)?|share/doc(/mte-tool/(copyright|changelog.gz|manifest.txt)|/libmte-tool.*)?")
    trees = [{name for name in Tree(folder).entries() if not own.fullmatch(name)} for folder in (tar, f"{root}/usr")]
    expect("the tar and the Debian packages have the same files", trees[0] == trees[1], trees[0] ^ trees[1])
    for name in trees[0] & trees[1]:
        one, two = f"{tar}/{name}", f"{root}/usr/{name}"
        if os.path.islink(one):
            expect(f"the link {name}", os.readlink(one) == os.readlink(two))
        elif os.path.isfile(one):
            expect(f"the file {name}", filecmp.cmp(one, two, shallow=False) and os.stat(one).st_mode == os.stat(two).st_mode)
    return root


# ---- as Debian has them

def dpkg(root, *words):
    return run_command(["dpkg", f"--root={root}", "--log=/dev/null", "--force-depends", *words])


def install(packages, root):
    """The packages in a folder: as root by dpkg, which can remove them again."""
    if os.geteuid():
        for path in packages.debs.values():
            run_command(["dpkg", "-x", path, root], check=True)
        return
    for folder in ("info", "updates", "triggers"):
        os.makedirs(f"{root}/var/lib/dpkg/{folder}")
    for name in ("status", "available"):
        with open(f"{root}/var/lib/dpkg/{name}", "w", encoding="ascii"):
            pass
    done = dpkg(root, "-i", *packages.debs.values())
    expect("dpkg installs the packages", done.returncode == 0, done.stdout, done.stderr)
    for name in packages.debs:
        done = dpkg(root, "-V", name)
        expect(f"dpkg finds {name} as it was packed", done.returncode == 0 and not done.stdout, done.stdout, done.stderr)


def test_shared(packages, user):
    """What Debian is told of the shared library is what the library says, and it and the recorders are hardened."""
    folder = f"{user.root}/usr/lib"
    objects = [f"{folder}/mte-tool/recorders/{file}" for file in packaging.RECORDERS.values()] if shutil.which("cc") else []
    if packages.library():
        control = {name: run_command(["dpkg-deb", "-I", packages.debs[packages.library()], name]).stdout.decode() for name in ("shlibs", "symbols")}
        names = [name for name in os.listdir(f"{folder}/{machines.HERE.triple}") if name.startswith("libmte_tool.so.")]
        words = control["shlibs"].split()
        expect(f"shlibs says {words}, and there are {names}", names == [".so.".join(words[:2])] and words[2] == packages.library())
        first, second, *listed = control["symbols"].splitlines()
        wanted = [f"{names[0]} {packages.library()} #MINVER#", "* Build-Depends-Package: libmte-tool-dev"]
        expect("the head of the symbols", [first, second] == wanted, first, second)
        objects.append(f"{folder}/{machines.HERE.triple}/{names[0]}")
        exported = run_command(["nm", "-D", "--defined-only", "--format=posix", objects[-1]]).stdout.decode()
        wanted = sorted({re.split("@+", line.split()[0])[0] for line in exported.splitlines()})
        found = sorted(line.split("@")[0].strip() for line in listed)
        expect("the symbols are those of the library", found == wanted and found, found, wanted)
    for path in objects:
        said = run_command(["readelf", "-W", "-d", "-l", path]).stdout
        expect(f"{path} is hardened", b"GNU_RELRO" in said and (b"BIND_NOW" in said or b"NOW" in said), said)


# ---- where they come from

def manifest_lines(text):
    return [line.split(" ", 1) for line in text.decode().splitlines()]


def test_provenance(packages, commit, work):
    """Each package says what it was made of, and has the hash of each of its files."""
    places = {}
    for name in packages.debs:
        listed = run_command(["dpkg-deb", "--fsys-tarfile", packages.debs[name]]).stdout
        os.mkdir(f"{work}/{name}")
        run_command(["tar", "-xf", "-", "-C", f"{work}/{name}"], input=listed, check=True)
        own = provenance.NAME if name == "mte-tool" else provenance.NAME.replace(".txt", ".amd64.txt")
        places[name] = f"{work}/{name}", f"usr/share/doc/{name}/{own}"
    for path in [packages.tar, *packages.crates]:
        run_command(["tar", "-xf", path, "-C", work], check=True)
        top = os.path.basename(path).removesuffix(".crate").removesuffix("-x86_64-linux.tar.gz")
        own = provenance.NAME if path.endswith(".crate") else f"share/doc/mte-tool/{provenance.NAME}"
        places[os.path.basename(path)] = f"{work}/{top}", own
    if packages.wheel:
        with zipfile.ZipFile(packages.wheel) as archive:
            archive.extractall(f"{work}/wheel")
            told = next(name for name in archive.namelist() if name.endswith(provenance.NAME))
        places["wheel"] = f"{work}/wheel", told
    for package, (folder, name) in places.items():
        lines = manifest_lines(read(f"{folder}/{name}"))
        one = dict(lines)
        expect(f"{package}: its commit", one["commit"].startswith(commit), one["commit"])
        expect(f"{package}: its proofs", one["proofs"] == ("proved" if IS_PROVED else "unproved"), one["proofs"])
        expect(f"{package}: the program that it is of", one["program"] == manifest.hash_of(PROGRAM))
        expect(f"{package}: the kit and the tools", one["kit"] and any(word == "tool" and "python3" in text for word, text in lines))
        files = {text.split("  ", 1)[1]: text.split("  ", 1)[0] for word, text in lines if word == "file"}
        missing = [each for each in Tree(folder).files() if each not in files and each != name and not each.endswith("/RECORD")]
        expect(f"{package}: a line for each file", not missing, missing)
        wrong = [each for each, sum_ in files.items() if manifest.hash_of(f"{folder}/{each}") != sum_]
        expect(f"{package}: the hash of each file", files and not wrong, wrong)


def test_release(inputs, work):
    """It is refused for a tree with changes and for a program that is not known to be proved; else all is in one folder."""
    clone = another_folder(f"{work}/clone")
    git = ["git", "-C", clone, "-c", "user.name=Somebody", "-c", "user.email=somebody@example.org"]
    run_command([*git, "tag", "v0.0.1"], check=True)
    run_command([*git, "add", "-A"], check=True)
    run_command([*git, "commit", "-q", "--allow-empty", "-m", "A step of the test"], check=True)
    run = lambda *more: run_command([f"{clone}/scripts/release", "--machine", machines.HERE.name, *more])
    other = machines.OTHERS[0]
    if machines.missing_tool(other):
        made = run_command([f"{clone}/scripts/release", "--modules", f"{work}/no"])
        expect("a release is for each machine", made.returncode == 3 and f"{other.triple}-gcc".encode() in made.stderr, made)
    expect("release --help", run("--help").stdout.startswith(b"Make a release"))
    for wrong in ([], ["--no-page", "a"], ["a", "b"], ["--gate", f"{ROOT}/LICENSE", f"{work}/no"]):
        made = run(*wrong)
        expect(f"release {wrong} is refused", made.returncode == 2 and made.stderr and not made.stdout, made)
    Path(f"{clone}/file of nobody").write_text("x", encoding="ascii")
    made = run("--program", PROGRAM, f"{work}/no")
    expect("a tree that is not clean is refused", made.returncode == 1 and b"file of nobody" in made.stderr, made)
    os.remove(f"{clone}/file of nobody")
    other = f"{work}/mte_tool"
    shutil.copy(PROGRAM, other)
    made = run("--program", other, f"{work}/no")
    expect("a program without a manifest is refused", made.returncode == 1 and b"not known to be proved" in made.stderr, made)
    Path(f"{work}/gate").write_text("all: 5 passed, 1 failed, 0 skipped\n", encoding="ascii")
    made = run("--gate", f"{work}/gate", "--program", other, f"{work}/no")
    expect("a gate that failed is refused", made.returncode == 1 and b"the gate failed" in made.stderr, made)
    # what a manifest says is believed here, so that a release can be made of any program
    sources, verdict = manifest.sources_of(clone), "logic=proved functions=1"
    said = manifest.Manifest(manifest.hash_of(other), sources, "kit-of-the-test logic 1", "proved", verdict)
    Path(manifest.path_of(other)).write_text(manifest.text_of(said), encoding="ascii")
    if not inputs.library or not inputs.page or not shutil.which("dpkg-deb"):
        skip("without the library or the page: a whole release")
        return
    given = dict(zip(inputs.words[::2], inputs.words[1::2]))
    releases_all(given, work, other, run, said, git)


def releases_all(given, work, other, run, said, git):
    """A release, whole: its files, their sums and its notes."""
    library = shutil.copytree(given["--library"], f"{work}/library", symlinks=True)
    given = ["--program", other, "--library", library, "--page", given["--page"]]
    for path in packaging.libraries_in(library):
        if os.path.exists(manifest.path_of(path)):
            os.remove(manifest.path_of(path))
    made = run(*given, f"{work}/no")
    good = made.returncode == 1 and b"the library is not known to be proved" in made.stderr
    expect("a library without a manifest is refused", good, made)
    for path in packaging.libraries_in(library):
        with open(manifest.path_of(path), "w", encoding="ascii") as file:
            file.write(manifest.text_of(said._replace(program=manifest.hash_of(path))))
    expect("what was refused wrote nothing", not os.path.exists(f"{work}/no") or not os.listdir(f"{work}/no"))
    with open(f"{work}/gate", "w", encoding="ascii") as file:
        file.write("package: 5 passed, 0 failed, 0 skipped\nall: 5 passed, 0 failed, 0 skipped\n")
    number = run_command([PROGRAM, "--version"]).stdout.split()[-1].decode()
    run_command([*git, "tag", f"v{number}"], check=True)
    made = run("--gate", f"{work}/gate", *given, f"{work}/release")
    names = sorted(os.listdir(f"{work}/release")) if made.returncode == 0 else []
    endings = [re.search(r"\.[a-z]+$|SHA256SUMS", name)[0] for name in names]
    wanted = [".crate", ".crate", ".deb", ".deb", ".deb", ".gz", ".md", ".whl", "SHA256SUMS"]
    expect("a release is one folder", sorted(endings) == wanted, names, made.stderr)
    expect("a commit with its tag has that version", f"mte-tool_{number}_amd64.deb" in names, names)
    expect("its names are printed", made.stdout.decode().split() == [f"{work}/release/{name}" for name in names], made.stdout)
    done = run_command(["sha256sum", "--strict", "-c", "SHA256SUMS"], cwd=f"{work}/release")
    expect("its checksums hold", done.returncode == 0 and done.stdout.count(b": OK\n") == len(names) - 2, done)
    notes = read(f"{work}/release/NOTES.md").decode()
    for wanted in (said.verdict, said.sources, "5 passed, 0 failed", "Since v0.0.1", "- A step of the test", "SHA256SUMS"):
        expect(f"the notes have {wanted}", wanted in notes, notes)
    made = run(*given, f"{work}/release")
    expect("a release goes into an empty folder", made.returncode == 2 and b"is not empty" in made.stderr, made)


# ---- what a user has

class User:
    """Somebody with the package, a home and Debian's folders of programs, and nothing of this machine's user."""

    def __init__(self, root, work):
        self.root, self.home = root, f"{work}/home"
        self.path = f"{root}/usr/bin:/usr/bin:/bin"
        os.mkdir(self.home)
        os.symlink(f"{root}/usr/share/mte-tool/examples", f"{self.home}/examples")

    def run(self, *words, **given):
        environment = {"PATH": self.path, "HOME": self.home, "LANG": "C.UTF-8", **given.pop("more", {})}
        return run_command(words, env=environment, cwd=self.home, **given)

    def names(self):
        return sorted(os.listdir(f"{self.root}/usr/bin"))


def lacks(command):
    """Whether a command of the package is of a part of the scripts that this copy is without (parts_alone.py); then it says so."""
    return command != "mte_tool" and skip_without(f"scripts/{command.removeprefix('mte_')}", f"{command} of the package")


def test_names(user, commit):
    """Each command says its own name, and has a page, completions and what they are made of."""
    share = f"{user.root}/usr/share"
    expect(f"the commands: {user.names()}", user.names() == sorted(["mte_tool", *(f"mte_{name}" for name in packaging.COMMANDS)]))
    for name in user.names():
        said = user.run(name, "--help")
        expect(f"{name} --help: {said.stderr}", said.returncode == 0 and re.search(rb"(?m)^Usage: mte_", said.stdout))
        others = re.search(rb"scripts/|[^\w_](tune_program|merge_profiles)", said.stdout)
        expect(f"{name} --help names {others}, which is not called so", not others)
        if not name.startswith("mte_traced"):
            said = user.run(name, "--wrong")
            own = name == "mte_tool" or said.stderr.startswith(f"{name}: ".encode())
            expect(f"{name} --wrong: {said}", said.returncode == 2 and own)
        for file in (f"man/man1/{name}.1.gz", f"bash-completion/completions/{name}", f"fish/vendor_completions.d/{name}.fish"):
            expect(f"{file} is there", os.path.isfile(f"{share}/{file}"))
        words = {"help": user.run(name, "-h" if name == "mte_tool" else "--help").stdout.decode()}
        for shell, file in (("bash", f"bash-completion/completions/{name}"), ("fish", f"fish/vendor_completions.d/{name}.fish"),
                            ("zsh", "zsh/vendor-completions/_mte_tool")):
            text = read(f"{share}/{file}").decode()
            for option in helps.Help(words["help"]).options():
                for one in option.names:
                    written = one if shell != "fish" else f"-l {one[2:]}" if one.startswith("--") else f"-s {one[1:]}"
                    expect(f"{shell} completes {one} of {name}", written in text)
    about = read(f"{share}/doc/mte-tool/README.Debian").decode()
    expect(f"README.Debian names the commit {commit}", commit in about and ("attle" in about))
    tree = Tree(user.root)
    dangling = [name for name in tree.entries() if not os.path.exists(f"{user.root}/{name}")]
    expect(f"no link leads nowhere: {dangling}", not dangling)


def test_pages(user):
    if skip_without("groff", "the manual pages"):
        return
    folder = f"{user.root}/usr/share/man/man1"
    for name in sorted(os.listdir(folder)):
        text = run_command(["gzip", "-dc", f"{folder}/{name}"]).stdout
        made = run_command(["groff", "-man", "-ww", "-Kutf8", "-Tutf8", "-rLL=100n"], input=text)
        shown = re.sub("\x1b\\[[0-9;]*m|.\b", "", made.stdout.decode())
        expect(f"{name}: {made.stderr[:300]}", made.returncode == 0 and not made.stderr and "NAME" in shown)
        words = re.sub(r"\W+", "", shown)
        command = ["mte_tool", name[9:-5]] if name.startswith("mte_tool-") else [name[:-5]]
        said = user.run(*command, "-h" if command[0] == "mte_tool" else "--help").stdout.decode().replace(f"{user.root}/", "/")
        headings = "Usage Example Examples Exit status Options Commands".split()
        missing = [word for word in re.findall(r"\w{4,}", said) if word not in words and word not in headings]
        expect(f"{name} has all words of the help, but: {missing[:5]}", not missing)


def test_library_page(user):
    """The page of the library has each name of the header, and each sentence of its comments."""
    path = f"{user.root}/usr/share/man/man3/mte_tool.3.gz"
    if not os.path.isfile(path):
        skip("without the library: its manual page")
    elif not skip_without("groff", "the library's manual page"):
        made = run_command(["groff", "-man", "-ww", "-Kutf8", "-Tutf8", "-rLL=100n"], input=run_command(["gzip", "-dc", path]).stdout)
        expect(f"mte_tool.3: {made.stderr[:300]}", made.returncode == 0 and not made.stderr)
        shown = re.sub(r"\W+", "", re.sub("\x1b\\[[0-9;]*m|.\b", "", made.stdout.decode()))
        header = re.sub(r"(?ms)^/\* before a call whose end.*?^#endif\n|^#(if|else|endif|include|define MTE_TOOL_H\b).*?$|extern|const_cast|MTE_TOOL_CHECKED", "",
                        read(f"{user.root}/usr/include/mte_tool.h").decode())
        missing = [word for word in re.findall(r"\w{4,}", header) if word not in shown and word != "__cplusplus"]
        expect(f"mte_tool.3 has all words of the header, but: {missing[:5]}", not missing and len(shown) > 10000)


def test_completions(user):
    share = f"{user.root}/usr/share"
    # what the shell does at a tab
    script = 'source "$1"; f=$(complete -p "$2" | sed "s/.*-F \\([^ ]*\\) .*/\\1/"); shift; COMP_WORDS=("$@"); COMP_CWORD=$(($# - 1))'
    script += '; $f; echo "${COMPREPLY[*]}"'
    for words, wanted in ((["mte_tool", "fo"], "footprint"), (["mte_tool", "tune", "--li"], "--limit"),
                          (["mte_tool", "tune", "--step", ""], "1 2 4 8"), (["mte_tune_program", "--obj"], "--objective"),
                          (["mte_tune_program", "--objective", "w"], "waste"), (["mte_tune_program", "mte_dra"], "mte_draw_waste"),
                          (["mte_tune_program", "--limit", "8", "--all", "--step", "=", "2", "mte_dra"], "mte_draw_waste"),
                          (["mte_tune_program", "--all", "--", "mte_dra"], "mte_draw_waste"), (["mte_tune_program", "--limit", "mte_dra"], ""),
                          (["mte_tune_program", "ls", "mte_dra"], ""),
                          (["mte_tune_program", "--objective", "=", "w"], "waste"), (["mte_tune_program", "ls", "--obj"], ""),
                          (["mte_traced_c++", "--h"], "--help")):
        if lacks(words[0]):
            continue
        made = user.run("bash", "-c", script, "bash", f"{share}/bash-completion/completions/{words[0]}", *words)
        expect(f"bash completes {words}: {made.stdout} {made.stderr}", made.stdout.decode().strip() == wanted and not made.stderr)
    if not skip_without("fish", "the completions of fish"):
        for line, wanted in (("mte_tool foo", "footprint"), ("mte_tool tune --st", "--step"), ("mte_tune_program --objective w", "waste"),
                             ("mte_tune_program --limit 8 --all mte_dra", "mte_draw_waste")):
            made = user.run("fish", "--no-config", "-c", f"set fish_complete_path {share}/fish/vendor_completions.d; complete -C '{line}'")
            expect(f"fish completes {line}: {made.stdout} {made.stderr}", made.stdout.decode().startswith(wanted))
    if not skip_without("zsh", "the completions of zsh"):
        made = user.run("zsh", "-n", f"{share}/zsh/vendor-completions/_mte_tool")
        expect(f"zsh reads its completions: {made.stderr}", made.returncode == 0)
        # what the shell would offer, in place of offering it
        script = 'function _arguments _describe compadd { print -r -l -- "$@" $own }; service=$2; words=($@[3,-1]); CURRENT=$#words; source $1'
        for words, wanted in ((["mte_tool", "fo"], "footprint:Report"), (["mte_tool", "tune", "--st"], "--step[Each class is"),
                              (["mte_tune_program", "--ob"], "(footprint waste)"), (["mte_traced_c++", "-"], "--help[Print help]")):
            if lacks(words[0]):
                continue
            made = user.run("zsh", "-f", "-c", script, "zsh", f"{share}/zsh/vendor-completions/_mte_tool", words[0], *words)
            expect(f"zsh completes {words}: {made.stdout} {made.stderr}", wanted in made.stdout.decode() and not made.stderr)


def sessions():
    """The commands of README that begin with `$`, with what they print, by the names that they have in a package."""
    for command, output in re.findall(r"(?m)^    \$ (.*)\n((?:    .*\n)*)", read(f"{ROOT}/README.md").decode()):
        command = re.sub(r"scripts/(\w+)", lambda match: match[1] if match[1] == "mte_tool" else f"mte_{match[1]}", command)
        yield command, re.sub(r"(?m)^    ", "", output)


def test_readme(user):
    found = list(sessions())
    expect("README has the session of the example", any("sqlite.trace" in command for command, _ in found))
    for command, output in found:
        if "mte_traced_cc" in command and skip_without("gcc", f"README: {command}"):
            continue
        if "mte_tune_program" in command and not IS_PROVED:
            skip(f"since nothing is proved of the program, which it says: README: {command}")
            continue
        made = user.run("bash", "-o", "pipefail", "-c", command)
        expect(f"README: {command}: {made.stdout[:300]} {made.stderr[:300]}", made.stdout.decode() == output)


def test_tuning(user, inputs):
    """A program is taken to its table, without a compiler."""
    folder = f"{user.home}/sorted"
    made = user.run("mte_tune_program", "--output", folder, "sort", "examples/sqlite.trace", more={"CC": "no_compiler", "MTE_TOOL": ""})
    good = made.returncode == 0 and (b"Proved: `check-fit` says `optimal`" in made.stdout) == IS_PROVED
    expect(f"mte_tune_program: {made.returncode} {made.stderr[-500:].decode()}", good)
    made = user.run("mte_check_sheet", f"{folder}/fitted.fit", f"{folder}/program.timeline")
    expect(f"the fit is a best one: {made}", made.returncode == 0 and made.stdout.splitlines()[-1].startswith(b"optimal"))
    report = read(f"{folder}/report.html").decode()
    expect("report.html says how to check", re.search(r'<pre id="check">mte_check_sheet \S+/fitted.fit \S+/program.timeline</pre>', report))
    expect("the page is beside the report", os.path.isfile(f"{folder}/page.html") == ('href="page.html"' in report) == bool(inputs.page))
    made = user.run("mte_page", "--trace", "examples/jq.trace")
    expect(f"mte_page: {made.stderr}", (made.returncode, b'"jq.trace"' in made.stdout) == ((0, True) if inputs.page else (3, False)))
    profile, sheet = f"{folder}/program.profile", f"{folder}/tuned.sheet"
    for words, wanted in ((["mte_profile_program", "ls", "examples"], rb"(?m)^\d+ \d+$"), (["mte_trace_program", "ls"], rb"(?m)^malloc 0 "),
                          (["mte_draw_waste", "examples/jq.profile"], b"^<svg"),
                          (["mte_scudo_classes", "examples/scudo.classes"], b"Class"),
                          (["mte_merge_profiles", "examples/jq.profile"], rb"^\d+ \d+\n"), (["mte_report", profile, sheet], b"<!DOCTYPE"),
                          (["mte_pools", "--check", "examples/lwip/lwip.pools", *(f"examples/lwip/{each}.timeline" for each in ("small", "large"))],
                           b"none takes less than 274,520 bytes"),
                          (["mte_check_sheet", sheet, profile], b"optimal")):
        if lacks(words[0]):
            continue
        made = user.run(*words, more={"CC": "no_compiler"})
        good = made.returncode == 0 and re.search(wanted, made.stdout)
        expect(f"{words}: {made.returncode} {made.stdout[:80]} {made.stderr[-300:]}", good)
    expect("nothing is compiled where the package has it", not os.path.exists(f"{user.home}/.cache/mte_tool/sizes"))


def test_manifest(user):
    """It is that of the packed program. Of another program in its place nothing is proved, and each script says so."""
    made = user.run("mte_manifest")
    expect(f"mte_manifest: {made}", made.returncode == (not IS_PROVED) and (b"this is the program" in made.stdout) == IS_PROVED)
    packed = f"{user.root}/usr/lib/mte-tool/mte_tool"
    expect("the manifest has the hash of the packed program", manifest.read(packed).program == manifest.hash_of(packed))
    os.rename(f"{user.root}/usr/bin/mte_tool", f"{user.root}/kept")
    Path(f"{user.root}/usr/bin/mte_tool").write_text(f'#!/bin/sh\nexec {user.root}/kept "$@"\n', encoding="utf-8")
    os.chmod(f"{user.root}/usr/bin/mte_tool", 0o755)
    made = user.run("mte_tune_program", "--output", "swapped", "--read", "examples/jq.profile")
    said = made.stdout + made.stderr
    expect(f"a swapped program: {made}", made.returncode == 0 and b"Proved" not in said and b"not the program of its manifest" in said)
    expect("mte_manifest of a swapped program", user.run("mte_manifest").returncode == 1)
    os.replace(f"{user.root}/kept", f"{user.root}/usr/bin/mte_tool")


def test_builds(user, packages):
    """The builds of examples/build as they are written: those that the package has, and for the workflow that of the repository too."""
    build = f"{user.home}/examples/build"
    for tool, name, words in (("make", "Makefile", "make"), ("cmake", "CMakeLists.txt", "cmake -B built . && cmake --build built")):
        if skip_without(tool, f"{name} of the package") or skip_without("make", f"{name} of the package"):
            continue
        folder = f"{user.home}/with {tool}"
        os.mkdir(folder)
        shutil.copy(f"{build}/{name}", folder)
        made = user.run("bash", "-c", f"cd '{folder}' && {words}")
        header = f"{folder}/{'built/' * (tool == 'cmake')}tuned_map.inc"
        good = made.returncode == 0 and b"optimal" in made.stdout and os.path.isfile(header) and b"1025," in read(header)
        expect(f"{name} of the package, as written: {made.stdout[-300:]} {made.stderr[-300:]}", good)
    with open(f"{user.home}/examples/sqlite.profile", "rb") as file:
        sheet = user.run("mte_tool", "tune", "--limit", "32", "--largest-class", "1", stdin=file).stdout
    for place, path in (("package", build), ("repository", f"{ROOT}/examples/build")):
        folder, temporary = f"{user.home}/checked out {place}", f"{user.home}/runner of {place}"
        os.mkdir(folder)
        os.mkdir(temporary)
        shutil.copy(packages.tar, folder)
        shutil.copy(f"{user.home}/examples/sqlite.profile", f"{folder}/app.profile")
        Path(f"{folder}/app.sheet").write_bytes(sheet)
        environment = {"PATH": "/usr/bin:/bin", "HOME": user.home, "LANG": "C.UTF-8"}
        done = workflow.run_all(read(f"{path}/workflow.yml").decode(), folder, temporary, environment)
        good = done.returncode == 0 and "optimal" in done.stdout and os.path.isfile(f"{folder}/tuned_map.inc")
        expect(f"the workflow of the {place}, as written: {done.stdout[-600:]}", good)


def test_fleet(user):
    """The load of examples/fleet as it is written, twice."""
    checks.need("scripts/fleet_profiles", "the load of examples/fleet by the package")
    if not postgresql.programs():
        skip("without PostgreSQL: the fleet's profiles in it")
        return
    profile = "mte_fleet_profiles --program jq --days 2026-01-01..2026-01-01"
    wanted = user.run("bash", "-c", f"examples/fleet/make_rows 2000 > rows.tsv && {profile} rows.tsv").stdout
    command = postgresql.load().replace("scripts/", "mte_")
    with postgresql.run_server() as server:
        for turn in ("first", "second"):
            made = user.run("bash", "-o", "pipefail", "-c", f"{command} && {profile} sums.tsv", more=server)
            expect(f"{command}, the {turn} time: {made.stdout[:200]} {made.stderr[:300]}", wanted and made.stdout == wanted)


def test_paths(user):
    """No file has a path of this machine."""
    # not ROOT alone, which may be as short as a word of a document
    paths = [os.fsencode(path) for path in (f"{ROOT}/scripts", f"{ROOT}/crates", f"{ROOT}/library", os.path.dirname(user.root))]
    for folder, _, names in os.walk(user.root):
        for name in names:
            path = f"{folder}/{name}"
            found = [each for each in paths if not os.path.islink(path) and each in read(path)]
            expect(f"{path} has the path {found}", not found)


class Versions(checks.Part):
    """The versions of snapshots and releases, as apt and pip sort them."""

    VERSIONS = [
        ("0.9.0", "0.9.0"),
        ("1.0.0~git20260101120000.g0123456789ab", "1.0.0.dev20260101120000"),
        ("1.0.0~git20260102120000.g0023456789ab", "1.0.0.dev20260102120000"),
        ("1.0.0~git20260102120000.g0023456789ab.changed", "1.0.0.dev20260102120000+changed"),
        ("1.0.0", "1.0.0"),
        ("1.0.0+git20250101120000.g0123456789ab", "1.0.0.post20250101120000"),
        ("1.0.0+git20260101120000.g0123456789ab.changed", "1.0.0.post20260101120000+changed"),
        ("1.0.1~git20240101120000.g0123456789ab", "1.0.1.dev20240101120000"),
    ]

    def test_forms(self):
        for version, wanted in self.VERSIONS:
            expect(f"{version} for pip", versions.pip_version(version) == wanted, versions.pip_version(version))

    def test_order(self):
        for (one, one_pip), (two, two_pip) in zip(self.VERSIONS, self.VERSIONS[1:]):
            if not skip_without("dpkg", "apt's order of versions"):
                expect(f"apt: {one} < {two}", not run_command(["dpkg", "--compare-versions", one, "lt", two]).returncode)
            words = [sys.executable, "-c", f"from pip._vendor.packaging.version import Version as V; print(V({one_pip!r}) < V({two_pip!r}))"]
            done = run_command(words)
            if not done.returncode:
                expect(f"pip: {one_pip} < {two_pip}", done.stdout == b"True\n", done)

    def test_commits(self):
        """Before its tag, at it, and after it."""
        checks.need("git", "the versions of commits")
        folder = self.folder()
        git = ["git", "-C", folder, "-c", "user.name=Somebody", "-c", "user.email=somebody@example.org"]
        time = datetime.datetime(2026, 1, 2, 3, 4, 5)
        run_command([*git, "init", "-q"], check=True)
        for tag, changed, wanted in (
            (None, False, "1.2.3~git20260102030405.g" + "a" * 12), (None, True, "1.2.3~git20260102030405.g" + "a" * 12 + ".changed"),
            ("v1.2.3", False, "1.2.3"), ("v1.2.3", True, "1.2.3+git20260102030405.g" + "a" * 12 + ".changed"),
            (None, False, "1.2.3+git20260102030405.g" + "a" * 12),
        ):  # fmt: skip
            run_command([*git, "commit", "-q", "--allow-empty", "-m", "A step"], check=True)
            if tag:
                run_command([*git, "tag", "-f", tag], check=True)
            with mock.patch.object(versions, "ROOT", folder), mock.patch.object(versions, "of_sdist", lambda: None):
                got = versions.version_of("1.2.3", "a" * 40, time, changed)
            expect(f"a commit with the tag {tag}, changed: {changed}", got == wanted, got)


class Source(checks.Part):
    def test_source(self):
        """Debian's source package: the same bytes twice, all that it lists, and nothing that lintian finds but what it
        names."""
        checks.need("dpkg-source dpkg-deb strip readelf", "Debian's source package")
        if why := engines.why_unproved():
            pytest.skip(f"since the project's engines are of other sources, {why}: Debian's source package")
        folder = self.folder()
        packages = [run_command([f"{ROOT}/scripts/package", "--source", f"{folder}/{name}"]) for name in "ab"]
        names = sorted(os.listdir(f"{folder}/a"))
        expect("a description and an archive", [each.partition("_")[0] for each in names] == ["mte-tool"] * 2, names, packages)
        expect("the names are printed", packages[0].stdout.decode().split() == [f"{folder}/a/{name}" for name in names], packages[0])
        for name in names:
            expect(f"twice the same bytes: {name}", filecmp.cmp(f"{folder}/a/{name}", f"{folder}/b/{name}", shallow=False))
        done = run_command(["dpkg-source", "-x", f"{folder}/a/{names[0]}", f"{folder}/source"])
        expect("dpkg-source unpacks it", done.returncode == 0, done.stderr)
        there = {name for name in os.listdir(f"{folder}/source")}
        expect("no crates, and debian", "crates" not in there and {"debian", "modules", "scripts", "COMMIT"} <= there, there)
        if not skip_without("dpkg-parsechangelog", "its changelog"):
            done = run_command(["dpkg-parsechangelog", "-S", "Version"], cwd=f"{folder}/source")
            expect("its version", done.stdout.decode().strip() in names[0], done)
        if not skip_without("lintian", "the rules of Debian for the source package"):
            done = run_command(["lintian", "--allow-root", "--fail-on", "error,warning", f"{folder}/a/{names[0]}"])
            expect("lintian of the source package", done.returncode == 0, done.stdout, done.stderr)


def test_callers(user, packages):
    package_callers.try_callers(user, packages)


def test_wheel(packages, work):
    package_callers.try_wheel(packages.wheel, work, IS_PROVED)


def test_crates(packages, work):
    package_callers.try_crates(packages.crates, work)


def test_removal(packages, user):
    """Nothing is left, also of what ran in between."""
    if os.geteuid() or not packages.debs:
        skip("since it is not root: the removal by dpkg")
        return
    done = dpkg(user.root, "-P", *packages.debs)
    left = [name for name in Tree(user.root).entries() if not re.fullmatch(r"(home|var)(/.*)?", name)]
    expect("nothing is left after the removal", done.returncode == 0 and not left, done.stderr, left)


def in_debian_instead(options):
    if not options.chroot:
        return None
    os.environ.pop("MTE_TOOL", None)
    with tempfile.TemporaryDirectory() as work:
        words = parts(work)[0] if os.path.exists(PROGRAM) else ["--page", f"{ROOT}/docs/page.html"]
        run_command([f"{ROOT}/scripts/package", "--source", f"{work}/snapshot"], check=True)
        clone = another_folder(f"{work}/clone")
        number = run_command([f"{clone}/scripts/mte_tool", "--version"], check=True).stdout.split()[-1].decode()
        git = ["git", "-C", clone, "-c", "user.name=Somebody", "-c", "user.email=somebody@example.org"]
        run_command([*git, "commit", "-qam", "A release of the test"])
        run_command([*git, "tag", f"v{number}"], check=True)
        snapshot = [os.path.join(f"{work}/snapshot", name) for name in os.listdir(f"{work}/snapshot")]
        return clean_debian.run(options.chroot, build(clone, words, f"{work}/release")[0].all, snapshot)


def add_options(parser):
    parser.add_argument("--chroot", metavar="FOLDER", help="try the packages in a Debian that is unpacked there")


if __name__ == "__main__":
    checks.main(in_debian_instead)
