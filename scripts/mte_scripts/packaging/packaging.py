"""What scripts/package puts where: the tree `usr` of an installed package, made of the repository's files and what was built of them."""

import ast
import datetime
import os
import re
import shutil
from pathlib import Path
from typing import NamedTuple

from mte_scripts import entry_point, helps, manifest, text_files
from mte_scripts.builds import library, web_page
from mte_scripts.entry_point import Refusal, say
from mte_scripts.packaging import completions, library_page, manual
from mte_scripts.packaging.machines import Machine
from mte_scripts.packaging.tree import Tree, run, source, tracked_files
from mte_scripts.places import SCRIPTS, SOURCES
from mte_scripts.recording.recording import ENDINGS, FLAGS


NAME = "mte-tool"
ABOUT = """\
An allocator with size classes rounds each request up to the next of a few block sizes, and the rest is lost. mte_tool makes tables of
sizes for the requests of your program: one tuned to lose little, and one that takes little memory over time. Each has a certificate, by
which anybody can check how good it is. It also replays the calls of a program on a hardened heap with memory tags, modelled after Arm's
Memory Tagging Extension."""
# what only the repository can do
AT_HOME = "bench crates edits library modules mte_tool package plants refuse_memory release statement step".split()
COMMANDS = sorted(name for name in os.listdir(SCRIPTS) if re.fullmatch(r"[a-z_]+(\+\+)?", name)
                  and os.path.isfile(os.path.join(SCRIPTS, name)) and name not in AT_HOME)
RECORDERS = {name: f"{name}{ending}" for name, ending in ENDINGS.items()}
SHARE, PRIVATE = f"usr/share/{NAME}", f"usr/lib/{NAME}"
DOCUMENTS = f"usr/share/doc/{NAME}"
# Debian's flags for what other programs load
HARDENED = "-fstack-protector-strong -D_FORTIFY_SOURCE=2 -Wformat -Werror=format-security -Wl,-z,relro -Wl,-z,now".split()


class Parts(NamedTuple):
    """What is packed, where it comes from, and the names that it has."""
    machine: Machine
    program: str
    spoken: "str | None"  # a program that can be run here, where that one can't
    manifest: manifest.Manifest
    library: "str | None"  # the folder of scripts/library
    unproved: str  # why the library is not known to be proved; empty if it is
    modules: "dict[str, bytes] | None"  # the page's engines
    origins: "list[str]"
    left_out: "list[str]"
    number: str  # of the program's version
    version: str  # of the packages
    commit: str
    is_changed: bool
    time: datetime.datetime
    kit: str
    maintainer: str
    repository: str  # where it is published; empty where that is not known

    def seconds(self) -> int:
        return int(self.time.timestamp())


def libraries_of(machine: Machine) -> str:
    """The folder of libraries, where Debian has it."""
    return f"usr/lib/{machine.triple}"


def put_program(tree: Tree, parts: Parts) -> None:
    """The program, and its manifest with the hash that it has without its symbols."""
    tree.copy(parts.program, "usr/bin/mte_tool", 0o755)
    tree.stripped("usr/bin/mte_tool")
    tree.link(f"{PRIVATE}/mte_tool", "usr/bin/mte_tool")
    packed = parts.manifest._replace(program=manifest.hash_of(tree.path("usr/bin/mte_tool")))
    tree.write(manifest.path_of(f"{PRIVATE}/mte_tool"), manifest.text_of(packed))


def libraries_in(folder: str) -> "list[str]":
    """The static and the shared library that scripts/library laid out in this folder."""
    below = os.path.join(folder, "lib")
    found = [os.path.join(below, name) for name in sorted(os.listdir(below)) if re.fullmatch(r"libmte_tool\.(a|so\.\d+)", name)]
    if len(found) != 2:
        raise Refusal(2, f"{folder} has not one static and one shared library: it is no folder of scripts/library")
    return found


def library_unproved(folder: str) -> str:
    """Why a library in this folder is not known to be proved, or an empty text."""
    for path in libraries_in(folder):
        if why := manifest.why_unproved(path, SOURCES):
            return why.replace("the program", os.path.basename(path))
    return ""


def trust_text(parts: Parts) -> str:
    """What is known of the program and the library, for the packages' descriptions."""
    tested = "The scripts, the page, the heap of the page in WebAssembly and what other languages call are tested, and not proved."
    if parts.manifest.proofs == "unproved":
        return "Nothing shows that this build of the program is proved."
    if parts.manifest.proofs == "by-project":
        return ("The program and the library are native code of engines that the project has proved, as WebAssembly: every function is proved to be"
                f" safe, to return and to meet its contract, and not that it was translated right. {tested}")
    of_library = " and of the library's engines" if parts.library and not parts.unproved else ""
    return f"Every function of the program{of_library} is proved to be safe, to return and to meet its contract. {tested}"


def modules_of_commands() -> "list[str]":
    """The modules of mte_scripts that a command has run or imports, also by others."""
    found: "set[str]" = set()
    left = [f"scripts/{name}" for name in COMMANDS]
    while left:
        for node in ast.walk(ast.parse(text_files.read(source(left.pop())))):
            module, names = "", []
            if isinstance(node, ast.ImportFrom) and node.module:
                module, names = node.module, [each.name for each in node.names]
            elif isinstance(node, ast.Call) and ast.unparse(node.func) == "entry_point.run" and len(node.args) > 1:
                module = f"mte_scripts.{ast.literal_eval(node.args[1]).rpartition('.')[0]}"
            elif isinstance(node, ast.Call) and ast.unparse(node.func) == "entry_point.part":
                module, _, name = f"mte_scripts.{ast.literal_eval(node.args[0])}".rpartition(".")
                names = [name]
            if module.split(".")[0] == "mte_scripts":
                place = f"scripts/{module.replace('.', '/')}"
                files = {f"{place}.py", f"{place}/__init__.py", "scripts/mte_scripts/__init__.py", *(f"{place}/{name}.py" for name in names)}
                new = {name for name in files - found if os.path.isfile(source(name))}
                found |= new
                left += new
    return sorted(found)


def data_files(modules: "list[str]") -> "list[str]":
    """What is no Python in the folders of these modules."""
    folders = {os.path.dirname(name) for name in modules}
    return [
        name
        for name in tracked_files("scripts/mte_scripts")
        if os.path.dirname(name) in folders and not name.endswith(".py")
    ]


def put_scripts(tree: Tree) -> None:
    """The scripts with what they use. Each is called by a name of its own."""
    modules = modules_of_commands()
    for name in [*modules, *data_files(modules), *tracked_files("scripts/shims")]:
        tree.copy(source(name), f"{PRIVATE}/{name}")
    for name in ["mte_tool", *COMMANDS]:
        first, rest = Path(source(f"scripts/{name}")).read_text(encoding="utf-8").split("\n", 1)
        # Debian's interpreters, and not the first ones on the path
        known = {"#!/bin/sh -": "#!/bin/bash -", "#!/bin/sh": "#!/bin/sh", "#!/usr/bin/env -S python3 -ISXutf8 --": "#!/usr/bin/python3 -ISXutf8"}
        shell, rest = known[first], rest.replace("\nexec python3 -ISXutf8", "\nexec /usr/bin/python3 -ISXutf8")
        tree.write(f"{PRIVATE}/scripts/{name}", f"{shell}\n{rest}", 0o755)
        if name != "mte_tool":
            tree.link(f"usr/bin/mte_{name}", f"{PRIVATE}/scripts/{name}")


def put_recorders(tree: Tree) -> "str | None":
    """The library that records a program, and its reader, compiled, so that no compiler is needed where they are used."""
    compiler = os.environ.get("CC", "cc")
    if not shutil.which(compiler):
        where = "the commands that record a program compile them, and want one"
        return f"the recorders in compiled form: the C compiler {compiler} is missing; {where}"
    for name, file in RECORDERS.items():
        at = f"{PRIVATE}/recorders/{file}"
        # in the folder, so that no path of this machine can be in it
        run([compiler, *FLAGS[name], *HARDENED, f"{name}.c", "-o", tree.path(at), "-ldl"], cwd=source("scripts/shims"))
        tree.stripped(at)
        os.chmod(tree.path(at), 0o644 if ENDINGS[name] else 0o755)
    return None


def put_reader(tree: Tree, folder: "str | None") -> "str | None":
    """The program by which find_faults asks the heap, compiled with the library that scripts/library laid out."""
    heap_reader = entry_point.part("faults.heap_reader")
    if heap_reader is None:
        return None  # there is no find_faults
    if not folder:
        return "the reader of find_faults, which asks the heap of the library"
    compiler = os.environ.get("CC", "cc")
    if not shutil.which(compiler):
        return f"the reader of find_faults: the C compiler {compiler} is missing"
    at = f"{PRIVATE}/recorders/{heap_reader.NAME}"
    place, name = os.path.split(heap_reader.SOURCE)
    # without what a debugger reads, in which the paths of this machine would be
    words = [*heap_reader.FLAGS, "-g0", *HARDENED, f"-I{os.path.abspath(folder)}/include", name, os.path.abspath(heap_reader.static(folder))]
    run([compiler, *words, "-o", tree.path(at)], cwd=place)
    tree.stripped(at)
    os.chmod(tree.path(at), 0o755)
    return None


def put_library(tree: Tree, folder: str, number: str, machine: Machine) -> None:
    """What scripts/library laid out, where Debian has it."""
    libraries = libraries_of(machine)
    for name in sorted(os.listdir(f"{folder}/include")):
        tree.copy(f"{folder}/include/{name}", f"usr/include/{name}")
    for name in sorted(os.listdir(f"{folder}/lib")):
        path = f"{folder}/lib/{name}"
        if os.path.islink(path):
            tree.link(f"{libraries}/{name}", f"{libraries}/{os.readlink(path)}")
        elif os.path.isfile(path) and not name.endswith(".manifest"):
            tree.copy(path, f"{libraries}/{name}")
            if name.endswith(".a"):
                run(["strip", "-D", "--strip-debug", tree.path(f"{libraries}/{name}")])
            else:
                tree.stripped(f"{libraries}/{name}")
    tree.write(f"{libraries}/pkgconfig/mte_tool.pc", pkg_config(f"{folder}/lib/pkgconfig/mte_tool.pc", machine))
    for name, text in library.cmake_files("../..", soname_of(tree, machine), number).items():
        tree.write(f"{libraries}/cmake/mte_tool/{name}", text)


def pkg_config(path: str, machine: Machine) -> str:
    """The file for pkg-config of scripts/library, with the folder of libraries that Debian has."""
    text = re.sub(r"(?m)^libdir=.*\n", "", text_files.read(path).decode())
    text = re.sub(r"(?m)^prefix=.*$", f"prefix=${{pcfiledir}}/../../..\nlibdir=${{prefix}}/lib/{machine.triple}", text)
    if not ("\nlibdir=" in text and "-L${libdir} " in text):
        raise Refusal(3, f"{path} has no prefix or no libdir: scripts/library and scripts/package differ")
    return text


def soname_of(tree: Tree, machine: Machine) -> str:
    """The name by which the loader knows the shared library."""
    dynamic = run(["readelf", "-W", "-d", tree.path(libraries_of(machine), "libmte_tool.so")])
    if found := re.search(r"\(SONAME\).*\[(libmte_tool\.so\.[0-9]+)\]", dynamic):
        return found[1]
    raise Refusal(2, "the shared library has no name libmte_tool.so.N: it is not one of scripts/library")


def put_documents(tree: Tree, parts: Parts) -> None:
    for name in tracked_files("README.md", "docs"):
        if not name.startswith("docs/page.html"):  # the package has a page of its own
            tree.copy(source(name), f"{DOCUMENTS}/{name}")
    for name in tracked_files("examples"):
        mode = 0o755 if os.access(source(name), os.X_OK) else 0o644
        tree.copy(source(name), f"{SHARE}/{name}", mode)
    for name, folder in (("docs", DOCUMENTS), ("examples", SHARE), ("web", SHARE)):
        tree.link(f"{PRIVATE}/{name}", f"{folder}/{name}")
    tree.link(f"{DOCUMENTS}/examples", f"{SHARE}/examples")
    tree.write(f"{DOCUMENTS}/README.Debian", package_readme(parts))


def put_page(tree: Tree, modules: "dict[str, bytes] | None") -> None:
    """The sources of the page with its engines, and the page that the package's own script prints of them."""
    for name in tracked_files("web"):
        if not name.endswith(".c"):
            tree.copy(source(name), f"{SHARE}/{name}")
    if modules:
        for name, module in modules.items():
            tree.write(f"{SHARE}/web/{name}.wasm", module)
        tree.write(f"{SHARE}/page.html", run([tree.path("usr/bin/mte_page")]))
        tree.link(f"{DOCUMENTS}/page.html", f"{SHARE}/page.html")


def help_of(tree: Tree, command: str, *words: str) -> helps.Help:
    """The help of a command of the package, with the paths that it has where it is installed."""
    return helps.Help(run([tree.path(f"usr/bin/{command}"), *words]).replace(f"{os.path.realpath(tree.root)}/", "/"))


def put_words(tree: Tree, parts: Parts) -> None:
    """Manual pages and completions, all from what the commands themselves say."""
    scripts = {f"mte_{name}": help_of(tree, f"mte_{name}", "--help") for name in COMMANDS}
    program = parts.spoken or tree.path("usr/bin/mte_tool")
    own = helps.Help(run([program, "-h"]))
    commands = {term: helps.Help(run([program, term, "-h"])) for term, _ in own.terms("COMMANDS") if term != "help"}
    date = f"{parts.time:%Y-%m-%d}"
    version = f"mte_tool {parts.number}"
    if parts.library:
        header = text_files.read(f"{parts.library}/include/mte_tool.h").decode()
        tree.packed("usr/share/man/man3/mte_tool.3", library_page.page(header, date, version))
    files = [(f"/{DOCUMENTS}/docs", "the documents; FORMATS.md has all formats and codes"),
             (f"/{SHARE}/examples", "profiles, traces and programs to try")]
    pages = {"mte_tool": own, **{f"mte_tool {name}": each for name, each in commands.items()}, **scripts}
    for name, each in pages.items():
        target = each.usage[0].split()[0]
        if name in scripts and target != name:  # one help for both
            tree.link(f"usr/share/man/man1/{name}.1.gz", f"usr/share/man/man1/{target}.1.gz")
            continue
        also = [f"mte_tool-{other}" for other in commands] + list(scripts) if name == "mte_tool" else ["mte_tool"]
        if name in scripts:
            also += [other for other in scripts if other != name and re.search(rf"\b{re.escape(other)}\b", str(vars(each)))]
        tree.packed(f"usr/share/man/man1/{name.replace(' ', '-')}.1", manual.page(name, each, date, version, also, files))
    for name, each, below in [("mte_tool", own, commands), *((name, each, None) for name, each in scripts.items())]:
        tree.write(f"usr/share/bash-completion/completions/{name}", completions.bash(name, each, below))
        tree.write(f"usr/share/fish/vendor_completions.d/{name}.fish", completions.fish(name, each, below))
    tree.write("usr/share/zsh/vendor-completions/_mte_tool", completions.zsh(scripts, "mte_tool", own, commands))


def package_readme(parts: Parts) -> str:
    """The package's own README."""
    origins = "\n".join(f"- {line}" for line in parts.origins)
    left_out = "\n".join(f"- {line}" for line in parts.left_out) or "- nothing"
    return f"""mte-tool {parts.version}

Built from the commit {parts.commit} with {parts.kit}.

What is here
------------

/usr/bin/mte_tool is the program. The repository's scripts/NAME is mte_NAME here: scripts/tune_program is mte_tune_program. So where a
document has `scripts/tune_program ..`, type `mte_tune_program ..`, and `mte_tool ..` for `scripts/mte_tool ..`. The examples are in
/{SHARE}/examples, the documents in /{DOCUMENTS}/docs. `man mte_tool` names all commands.

    mte_tune_program sqlite3 :memory: < /{SHARE}/examples/sqlite_large.sql

takes a program to a table of its own. `mte_manifest` prints of which sources the program was built, and whether it is proved.

Where it comes from
-------------------

{origins}

What is not here
----------------

- the proofs: they are in the repository, with the contracts and the crates. Links of the documents to `crates` lead there.
- the scripts that build and test: `library`, `modules`, `package`, `release`, `bench`, `edits`, `refuse_memory` and `tests`; and `statement`, which
  reads the crates.

Left out of this package, because it could not be made or was not wanted:

{left_out}
"""


def stage(folder: str, parts: Parts) -> Tree:
    """The whole tree in this folder."""
    tree = Tree(folder)
    put_program(tree, parts)
    put_scripts(tree)
    for missing in filter(None, (put_recorders(tree), put_reader(tree, parts.library))):
        say("package", f"left out: {missing}")
        parts.left_out.append(missing)
    if parts.library:
        put_library(tree, parts.library, parts.number, parts.machine)
    put_documents(tree, parts)
    put_page(tree, parts.modules)
    put_words(tree, parts)
    return tree
