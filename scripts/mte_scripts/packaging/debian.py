"""The Debian packages of a tree of scripts/mte_scripts/packaging/packaging.py: which files each has, its control files, and the archive."""

import datetime
import hashlib
import os
import re
import textwrap
from pathlib import Path
from typing import NamedTuple

from mte_scripts.entry_point import Refusal
from mte_scripts.packaging import packaging, provenance
from mte_scripts.packaging.packaging import NAME, Parts
from mte_scripts.packaging.tree import Tree, run
from mte_scripts.places import ROOT


# packages of an older shape, which had the files of all
ONCE = "1.0.0~"


# the nodes of library/mte_tool.map, with the first version of the packages that has each, its snapshots too
SINCE = {"MTE_TOOL_1": "1.0.0~"}


# of each package, by what its name has beside NAME: its section, its title, and what it has
WORDS = {
    "": ("devel", "size-class tables with certificates, and a heap with memory tags",
         "This package has the program, the scripts, the page, the documents and the examples."),
    "library": ("libs", "size-class tables with certificates - shared library", "This package has the shared library."),
    "dev": ("libdevel", "size-class tables with certificates - development files",
            "This package has the headers with their manual page, the static library, and what pkg-config and CMake read."),
}


class Package(NamedTuple):
    """One of the packages."""
    name: str
    section: str
    title: str
    about: str
    fields: str  # the lines of its own in the control file; GLIBC stands for what its objects need of glibc
    files: str  # what its files are named, as a pattern


def packages(tree: Tree, parts: Parts) -> "list[Package]":
    """The packages that the tree has files for; the first has what no other has."""
    found = [Package(NAME, *WORDS[""], commands_fields(tree), "")]
    libraries = packaging.libraries_of(parts.machine)
    if tree.has(f"{libraries}/libmte_tool.so"):
        soname = packaging.soname_of(tree, parts.machine)
        library = f"lib{NAME}{soname.rpartition('.')[2]}"
        moved = f"Breaks: {NAME} (<< {ONCE})\nReplaces: {NAME} (<< {ONCE})\n"
        found += [
            Package(library, *WORDS["library"], "Multi-Arch: same\nDepends: GLIBC\n", re.escape(f"{libraries}/{soname}")),
            Package(f"lib{NAME}-dev", *WORDS["dev"], f"Multi-Arch: same\nDepends: {library} (= {parts.version})\n{moved}",
                    rf"usr/include/.*|usr/share/man/man3/.*|{libraries}/(libmte_tool\.(a|so)|pkgconfig/.*|cmake/.*)")]
    return found


def commands_fields(tree: Tree) -> str:
    helped, recommended = "binutils, gcc | c-compiler, g++ | c++-compiler, llvm, libc6-dev | libc-dev", ""
    if not tree.has(f"{packaging.PRIVATE}/recorders"):
        helped, recommended = "binutils, g++ | c++-compiler, llvm", "Recommends: gcc | c-compiler, libc6-dev | libc-dev\n"
    return f"Depends: GLIBC, python3 (>= 3.9)\n{recommended}Suggests: {helped}, lib{NAME}-dev\n"


def paragraph(text: str) -> str:
    return textwrap.indent(textwrap.fill(text, 77), " ") + "\n"


def control(tree: Tree, parts: Parts, package: Package) -> str:
    size = sum(1 if os.path.isdir(path) or os.path.islink(path) else -(-os.path.getsize(path) // 1024)
               for path in (os.path.join(tree.root, name) for name in tree.entries()))
    built = f"Built from the commit {parts.commit} with {parts.kit}; {manifest_of(package, parts)} beside the copyright says more."
    glibc = "libc6 (>= {}.{})".format(*tree.least_glibc())
    home = f"Homepage: {parts.repository}\n" if parts.repository else ""
    source = "" if package.name == NAME else f"Source: {NAME}\n"
    return f"""Package: {package.name}
{source}Version: {parts.version}
Architecture: {parts.machine.debian}
Maintainer: {parts.maintainer}
Installed-Size: {size}
{package.fields.replace("GLIBC", glibc)}Section: {package.section}
Priority: optional
{home}Description: {package.title}
{paragraph(packaging.ABOUT)} .
{paragraph(package.about)} .
{paragraph(packaging.trust_text(parts))} .
{paragraph(built)}"""


def copyright_text(year: str, holder: str) -> str:
    license_text = Path(ROOT, "LICENSE").read_text(encoding="utf-8")
    _, mark, exceptions = license_text.partition("---- LLVM Exceptions to the Apache 2.0 License ----\n")
    if not mark:
        raise Refusal(3, "LICENSE has no exceptions of LLVM: scripts/mte_scripts/packaging/debian.py says that it has")
    # an empty line of a field is a dot
    indented = "".join(f" {line}\n" if line else " .\n" for line in exceptions.strip().split("\n"))
    return f"""Format: https://www.debian.org/doc/packaging-manuals/copyright-format/1.0/
Upstream-Name: mte_tool

Files: *
Copyright: {year} {holder}
License: Apache-2.0-with-LLVM-exceptions

License: Apache-2.0-with-LLVM-exceptions
 On Debian systems the text of the Apache License, version 2.0, is in
 /usr/share/common-licenses/Apache-2.0. These exceptions are added to it:
 .
{indented}"""


def changelog(version: str, commit: str, maintainer: str, time: datetime.datetime) -> str:
    return f"""{NAME} ({version}) unstable; urgency=medium

  * Built from the commit
    {commit}.

 -- {maintainer}  {time:%a, %d %b %Y %H:%M:%S} +0000
"""


def manifest_of(package: Package, parts: Parts) -> str:
    """The name of the manifest. A package that may be there for two architectures has no file that differs between them."""
    return provenance.NAME if package.name == NAME else provenance.NAME.replace(".txt", f".{parts.machine.debian}.txt")


def overrides(package: Package, tree: Tree) -> str:
    """What lintian would say of the package, and why it is meant."""
    if package.name != NAME:
        return ""
    static = "" if tree.has_loader("usr/bin/mte_tool") else f"""\
# the program is the same in the tar and the wheel, for other distributions too
{NAME}: statically-linked-binary [usr/bin/mte_tool]
{NAME}: shared-library-lacks-prerequisites [usr/bin/mte_tool]
"""
    return f"""{static}# the script reads the list of files of each package of the machine that it measures
{NAME}: uses-dpkg-database-directly [usr/share/{NAME}/examples/memcached/measure]
# it begins in any shell, which may start sooner than bash, and goes on in bash
{NAME}: shell-script-fails-syntax-check [usr/lib/{NAME}/scripts/mte_tool]
"""


def symbols(tree: Tree, parts: Parts, library: str) -> str:
    """The symbols file of the shared library: each symbol with the version that had it first, which its node tells."""
    lines = []
    for line in run(["readelf", "-W", "--dyn-syms", tree.path(packaging.libraries_of(parts.machine), "libmte_tool.so")]).splitlines():
        words = line.split()
        if len(words) < 8 or words[4] not in ("GLOBAL", "WEAK") or words[6] == "UND":
            continue
        name, _, node = words[7].partition("@")
        node = name if words[6] == "ABS" else node.lstrip("@")  # the node itself is a symbol too
        if node not in SINCE:
            raise Refusal(3, f"the shared library exports {name} in {node}, which SINCE of packaging/debian.py lacks")
        lines.append(f" {name}@{node} {SINCE[node]}\n")
    head = f"{packaging.soname_of(tree, parts.machine)} {library} #MINVER#\n* Build-Depends-Package: lib{NAME}-dev\n"
    return head + "".join(sorted(lines))


def sums(tree: Tree) -> str:
    return "".join(f"{hashlib.md5(tree.read(name), usedforsecurity=False).hexdigest()}  {name}\n" for name in tree.files())


def divide_tree(tree: Tree, parts: Parts, folder: str) -> "list[tuple[Package, Tree]]":
    """Each package with its files, which move into folders of their own, and with the control files."""
    every = packages(tree, parts)
    told = symbols(tree, parts, every[1].name) if len(every) > 1 else ""
    soname = packaging.soname_of(tree, parts.machine) if told else ""
    found = [(package, Tree(os.path.join(folder, package.name))) for package in every]
    for name in [name for name in tree.entries() if not os.path.isdir(tree.path(name)) or os.path.islink(tree.path(name))]:
        to = next((its for package, its in found[1:] if re.fullmatch(package.files, name)), found[0][1])
        tree.move(name, to)
    for package, its in found:
        documents = f"usr/share/doc/{package.name}"
        its.write(f"{documents}/copyright", copyright_text(f"{parts.time:%Y}", parts.maintainer))
        its.packed(f"{documents}/changelog", changelog(parts.version, parts.commit, parts.maintainer, parts.time))
        if meant := overrides(package, its):
            its.write(f"usr/share/lintian/overrides/{package.name}", meant)
        its.write(f"{documents}/{manifest_of(package, parts)}", provenance.text_of(its, parts, package.name))
        written = control(its, parts, package), sums(its)
        its.write("DEBIAN/control", written[0])
        its.write("DEBIAN/md5sums", written[1])
        if package.section == "libs":
            its.write("DEBIAN/shlibs", f"libmte_tool {soname.rpartition('.')[2]} {package.name}\n")
            its.write("DEBIAN/symbols", told)
            its.write("DEBIAN/triggers", "activate-noawait ldconfig\n")
    return found


def build(tree: Tree, parts: Parts, folder: str, work: str) -> "list[str]":
    """Writes the packages of the tree into the folder, and takes its files for it; their paths."""
    made = []
    for package, its in divide_tree(tree, parts, work):
        path = os.path.join(folder, f"{package.name}_{parts.version}_{parts.machine.debian}.deb")
        its.finish(parts.seconds())
        # gzip, since its bytes do not depend on the number of cores
        words = ["dpkg-deb", "--root-owner-group", "-Zgzip", "--build", its.root, path]
        run(words, env={**os.environ, "SOURCE_DATE_EPOCH": str(parts.seconds())})
        made.append(path)
    return made
