"""Makes the packages of the program and all that goes with it. `package --help` says all."""

import argparse
import os
import re
import shutil
import subprocess

from mte_scripts import engines, helps, manifest, private_folder, program_runs, text_files
from mte_scripts.builds import library as library_of_c, native_code, web_page
from mte_scripts.entry_point import Refusal, say
from mte_scripts.packaging import crates, debian, debian_source, machines, packaging, provenance, versions, wheel
from mte_scripts.packaging.machines import Machine
from mte_scripts.packaging.packaging import Parts
from mte_scripts.packaging.tree import Tree, of_sdist, run, source, write_tar
from mte_scripts.places import SCRIPTS, SOURCES

from mte_scripts.words import Words

OPTIONS = """\
  --program FILE   the program, where it was built elsewhere, with its manifest beside it; without it scripts/mte_tool proves and builds it
  --library DIR    what scripts/library laid out in DIR; without it that script proves and builds the library
  --page FILE      what scripts/page printed; without it the engines of the page are built
  --modules        all of the engines that the project has proved, as they are in `modules` and docs/page.html: without the kit
"""
NAMES = """\
  --kit TEXT       the version of the Rattle kit that built these, where they were built elsewhere; `rt version` where it is left out
  --maintainer TEXT
                   `NAME <ADDRESS>` for the packages; the author of the commit where it is left out
  --repository URL
                   where the repository is published, for the packages to name
"""
HELP = f"""\
Make the packages of this commit, of the program, the scripts, the library for C, C++, Rust and Python, the page, manual pages, completions
for bash, zsh and fish, the documents and the examples.

Usage: package [OPTION..] FOLDER

{OPTIONS}  --machine NAME   x86_64 or aarch64: for such processors; for others than this machine's as with --modules, by a cross compiler
  --no-library     leave the library out, and with it the wheel, the crates, libmte-tool1 and libmte-tool-dev
  --no-page        leave the page out
  --source         make Debian's source package alone, mte-tool_VERSION.dsc and .tar.gz, of what is built without the
                   Rattle kit
{NAMES}
It writes into FOLDER, and prints the names of:

  mte-tool-VERSION-MACHINE-linux.tar.gz  everything, to be unpacked anywhere
  mte-tool_VERSION_amd64.deb             for Debian, or arm64, by dpkg-deb: the commands; libmte-tool1 has the shared library, libmte-tool-dev
                                         the headers, the static library, and what pkg-config and CMake read
  mte_tool-VERSION-PLATFORM.whl          for pip: the Python package, with the commands
  mte-tool-NUMBER.crate                  for cargo, and mte-tool-sys-NUMBER.crate: the Rust crates, with the static library

VERSION is the program's number at its tag `vNUMBER`. A commit before that tag has NUMBER~gitTIME.gCOMMIT, which apt
takes for older than the release; one after it NUMBER+gitTIME.gCOMMIT. It ends with `.changed` where files differ from
the commit. The wheel has NUMBER.devTIME and NUMBER.postTIME for these, which pip sorts likewise. It needs git, binutils
and Python 3, no root and no network.

What can't be made, for want of a tool or the kit, is left out; standard error and the packages' README.Debian say what, and why. The
program can't be left out. Each package has a file {provenance.NAME} that says where it comes from. Two runs over one commit, in any two
folders, write the same bytes with the same tools (docs/INSTALL.md).

Exit status:
  0  the packages are made
  2  the words are refused, or a file that they name
  3  there is no program, a tool is missing or failed, or a file can't be written

Example:
  scripts/package packages && apt install ./packages/*.deb
"""


PROVED = "was proved and built from these sources"


def options_of(words: list, help_text: str) -> "tuple[argparse.Namespace, str]":
    """The options, and the folder."""
    unset = argparse.Namespace(no_library=False, no_page=False, source=False)
    options = Words(help_text, "folders").take(words, into=unset)
    for one, other in (("library", "no_library"), ("page", "no_page"), ("program", "modules"), ("library", "modules")):
        if getattr(options, one) and getattr(options, other):
            raise Refusal(2, f"--{one} and --{other.replace('_', '-')} can't be given both; --help says what there is")
    machine = machines.machine_of(options.machine) if options.machine else machines.HERE
    if machine is not machines.HERE and (options.program or options.library):
        raise Refusal(2, f"for {machine.name} the program and the library are made of modules, and can't be given")
    if len(options.folders) != 1:
        raise Refusal(2, "name one folder for the packages; --help says more")
    return options, options.folders[0]


def program_of(options: argparse.Namespace) -> str:
    """The path of the program. One that was built elsewhere has to print this commit's help."""
    path = options.program
    if path is None:
        if os.environ.get("MTE_TOOL"):
            raise Refusal(
                2,
                "MTE_TOOL names another program, and a package has the built one: unset it, or name that by --program",
            )
        return program_runs.program()
    path = os.path.abspath(path)
    if not (os.path.isfile(path) and os.access(path, os.X_OK)):
        raise Refusal(2, f"{path} is no program")
    wanted = helps.sessions(text_files.read(os.path.join(SCRIPTS, "tests/help.txt")).decode())
    for words in (["--version"], ["-h"], ["tune", "-h"]):
        try:
            done = subprocess.run([path, *words], stdin=subprocess.DEVNULL, capture_output=True)
        except OSError as error:
            raise Refusal(2, f"{path} can't be run: {error.strerror}") from None
        if done.stdout.decode(errors="replace") != wanted[" ".join(words)]:
            raise Refusal(2, f"{path} is not this commit's program: {' '.join(words)} prints something else")
    return path


def manifest_of(path: str, options: argparse.Namespace) -> "tuple[manifest.Manifest, str]":
    """The manifest that the package has, and where the program is from. It is called proved only by a manifest that holds."""
    why, digest = manifest.why_unproved(path, SOURCES), manifest.hash_of(path)
    told = f"(SHA-256 {digest} before its symbols were stripped)"
    if not why and manifest.read(path).proofs == "by-project":
        return manifest.read(path), f"the program is native code of the engines that the project has proved {told}"
    if not why:
        return manifest.read(path), f"the program {PROVED} {told}"
    say("package", f"nothing is proved of the program: {why}")
    sources = manifest.sources_of(SOURCES) if SOURCES else engines.read_manifest()["sources"]
    unproved = manifest.Manifest(digest, sources, kit_of(options), "unproved")
    return unproved, f"the program was built elsewhere, and nothing is proved of it: {why} {told}"


def library_of(options: argparse.Namespace, folder: str) -> "tuple[str | None, str]":
    """The folder of the library; or None, and why there is none."""
    if options.no_library:
        return None, "the library for C: --no-library"
    if options.library:
        given = options.library
        if not os.path.isfile(os.path.join(given, "lib/pkgconfig/mte_tool.pc")):
            raise Refusal(2, f"{given} is no folder of scripts/library")
        return given, ""
    if not shutil.which("rt") and engines.why_unproved():
        return None, f"the library for C: the kit's command rt is missing, and {engines.why_unproved()}"
    if subprocess.run([os.path.join(SCRIPTS, "library"), folder], stdin=subprocess.DEVNULL, stdout=subprocess.DEVNULL).returncode:
        return None, "the library for C: scripts/library could not build it"
    return folder, ""


def page_of(options: argparse.Namespace) -> "tuple[dict[str, bytes] | None, str]":
    """The modules of the page, and where they are from; or None, and why there are none."""
    if options.no_page:
        return None, "the page: --no-page"
    if options.page:
        return web_page.modules_of(options.page), "the engines of the page were compiled elsewhere, by scripts/page"
    if options.modules or of_sdist() or not shutil.which("rt"):
        if modules := web_page.of_documents():
            return modules, "the engines of the page are those of docs/page.html, which the project has proved"
        if options.modules:
            return None, "the page: docs/page.html is of other sources"
    try:
        return web_page.build_engines("package"), "the engines of the page were proved and compiled from these sources"
    except Refusal as refused:
        return None, f"the page: {refused.text}"


def kit_of(options: argparse.Namespace) -> str:
    if options.kit:
        return options.kit
    if options.modules or not shutil.which("rt"):
        return engines.read_manifest().get("kit", "a Rattle kit of unknown version")
    return " ".join(run(["rt", "version"]).split())


def maintainer_of(options: argparse.Namespace, author: str) -> str:
    maintainer: str = options.maintainer or author
    if not re.fullmatch(r"[^<>\n]+ <[^<>@\s]+@[^<>@\s]+>", maintainer):
        raise Refusal(2, f"the maintainer is not NAME <ADDRESS>: {maintainer}")
    return maintainer


def build_modules(options: argparse.Namespace, machine: Machine, work: str) -> argparse.Namespace:
    """Compiles the project's engines for this machine; the options that name what was made. The program needs no library."""
    if why := engines.why_unproved():
        raise Refusal(3, f"the project's engines can't be packed: {why}")
    program = f"{work}/mte_tool"
    os.makedirs(work, exist_ok=True)
    with machines.tools_of(machine):
        native_code.make_program(program)
        text_files.write_file(manifest.path_of(program), engines.manifest_of(program, "program"))
        if not options.no_library:
            library_of_c.build(f"{work}/library", False)
    made = argparse.Namespace(**vars(options))
    made.program, made.library, made.modules = program, None if options.no_library else f"{work}/library", True
    return made


def collect(options: argparse.Namespace, machine: Machine, work: str) -> Parts:
    """All parts of the packages for this machine."""
    is_here = machine is machines.HERE
    if options.modules or not is_here:
        options = build_modules(options, machine, work)
    number, time, author, is_changed = versions.commit()
    maintainer = maintainer_of(options, author)
    program = program_of(options) if is_here else options.program
    manifested, origin = manifest_of(program, options)
    library, library_words = library_of(options, f"{work}/library")
    unproved = packaging.library_unproved(library) if library else ""
    if unproved:
        say("package", f"nothing is proved of the library: {unproved}")
        library_words = f"the library for C was built elsewhere, and nothing is proved of it: {unproved}"
    elif library:
        by_project = manifest.read(packaging.libraries_in(library)[0]).proofs == "by-project"
        library_words = f"the library for C {'is of the engines that the project has proved' if by_project else PROVED}"
    modules, page_words = page_of(options)
    origins: "list[str]" = [origin]
    left_out: "list[str]" = []
    for has, words in ((library, library_words), (modules, page_words)):
        (origins if has else left_out).append(words)
        if not has:
            say("package", f"left out: {words}")
    if options.repository and not re.fullmatch(r"https://[^\s\"\\]+", options.repository):
        raise Refusal(2, f"--repository takes an address that begins with https://, and not {options.repository}")
    spoken = None if is_here else engines.make_native()
    said = run([spoken or program, "--version"]).split()[-1]
    version = versions.version_of(said, number, time, is_changed)
    if is_changed:
        say("package", f"files differ from the commit {number[:12]}, so the version ends with .changed")
    commit_name = f"{number}, with changes," if is_changed else number
    return Parts(machine, program, spoken, manifested, library, unproved, modules, origins, left_out, said, version, commit_name, is_changed, time,
                 kit_of(options), maintainer, options.repository or "")


def make_packages(every: "list[Parts]", folder: str, work: str) -> "list[str]":
    """Makes the packages of these parts in the folder, those of each machine, and the crates, which are for all; their paths."""
    made: "list[str]" = []
    archives: "dict[str, bytes]" = {}
    for parts in every:
        with machines.tools_of(parts.machine):
            made += packages_of(parts, folder, f"{work}/{parts.machine.name}", archives)
    return [*made, *(crates.build(archives, every, folder, f"{work}/crates") if archives else ())]


def packages_of(parts: Parts, folder: str, work: str, archives: "dict[str, bytes]") -> "list[str]":
    """Makes the packages for one machine; their paths. Its static library is put into ARCHIVES."""
    tree = packaging.stage(f"{work}/tree", parts)
    usr = Tree(os.path.join(tree.root, "usr"))
    made: "list[str]" = []
    if parts.library:
        made.append(wheel.build(usr, parts, folder, f"{work}/wheel"))
        archives[parts.machine.name] = usr.read(f"lib/{parts.machine.triple}/libmte_tool.a")
    usr.copy(source("LICENSE"), "LICENSE")  # Debian has its text elsewhere
    documents = packaging.DOCUMENTS.partition("/")[2]
    usr.write(f"{documents}/{provenance.NAME}", provenance.text_of(usr, parts, packaging.NAME))
    usr.finish(parts.seconds())
    name = f"{packaging.NAME}-{parts.version}"
    made.append(os.path.join(folder, f"{name}-{parts.machine.name}-linux.tar.gz"))
    write_tar(usr, made[-1], name, parts.seconds())
    for extra in ("LICENSE", f"{documents}/{provenance.NAME}"):
        os.remove(usr.path(extra))
    if shutil.which("dpkg-deb"):
        return [*made, *debian.build(tree, parts, folder, f"{work}/debian")]
    say("package", "left out: the Debian packages: the command dpkg-deb is missing")
    return made


def want_tools(*more: str) -> None:
    for tool in (*([] if of_sdist() else ["git"]), "strip", "readelf", *more):
        if not shutil.which(tool):
            raise Refusal(3, f"the command {tool} is missing")


def package(words: list) -> None:
    options, folder = options_of(words, HELP)
    want_tools(*["dpkg-source"] * options.source)
    os.umask(0o022)
    try:
        os.makedirs(folder, exist_ok=True)
        with private_folder.temporary() as work:
            if options.source:
                made = debian_source.build(folder, work, lambda author: maintainer_of(options, author))
            else:
                machine = machines.machine_of(options.machine) if options.machine else machines.HERE
                made = make_packages([collect(options, machine, work)], folder, work)
    except OSError as error:
        raise Refusal(3, f"{error.filename or folder}: {error.strerror}") from None
    text_files.write("".join(f"{path}\n" for path in sorted(made)))
