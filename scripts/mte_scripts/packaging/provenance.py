"""Where a package comes from, as a file `manifest.txt` in each: the commit, the kit, what the proofs came to, the tools, and the hash of
each file. Whoever builds the same commit with the same tools has the same bytes."""

import hashlib
import os
import shutil
import subprocess
import sys
import zlib
from collections.abc import Iterable

from mte_scripts import manifest
from mte_scripts.packaging import packaging
from mte_scripts.packaging.packaging import Parts
from mte_scripts.packaging.tree import Tree

NAME = "manifest.txt"
# whose versions may show in the bytes, and the words that print it
TOOLS = (("cc", "--version"), ("ld", "--version"), ("strip", "--version"), ("dpkg-deb", "--version"))


def tools() -> "list[tuple[str, str]]":
    """The versions of the tools, the first line of what each says."""
    found = []
    for name, word in TOOLS:
        command = shutil.which(os.environ.get("CC", name) if name == "cc" else name)
        if command:
            said = subprocess.run([command, word], stdout=subprocess.PIPE, stderr=subprocess.DEVNULL, stdin=subprocess.DEVNULL).stdout
            found.append(("tool", f"{name}: {(said.decode(errors='replace').splitlines() or ['of unknown version'])[0]}"))
    return [*found, ("tool", f"python3: {sys.version.split()[0]}, zlib {zlib.ZLIB_RUNTIME_VERSION}")]


def build_hashes(parts: Parts) -> "list[tuple[str, str]]":
    """What was built before it was packed and stripped."""
    found = [("program", manifest.hash_of(parts.program))]
    if parts.library:
        found += [("library", f"{manifest.hash_of(path)}  {os.path.basename(path)}") for path in packaging.libraries_in(parts.library)]
        own = None if parts.unproved else manifest.read(packaging.libraries_in(parts.library)[0])
        found.append(("library-proofs", own.proofs if own else "unproved"))
        if own and own.verdict:
            found.append(("library-verdict", own.verdict))
    for name, data in sorted((parts.modules or {}).items()):
        found.append(("engine", f"{hashlib.sha256(data).hexdigest()}  {name}.wasm"))
    return found


def text_of(tree: Tree, parts: Parts, package: str, others: "Iterable[Parts]" = ()) -> str:
    """The manifest of a package that has the files of this tree: lines of a name and a value. It is of the parts for one machine, and has
    a line for what is of others."""
    lines = [("package", f"{package} {parts.version}"), ("commit", parts.commit), ("sources", parts.manifest.sources), ("kit", parts.kit),
             ("proofs", parts.manifest.proofs)]
    if parts.manifest.verdict:
        lines.append(("verdict", parts.manifest.verdict))
    lines += [
        *(("origin", each) for each in parts.origins),
        *(("without", each) for each in parts.left_out),
        *build_hashes(parts),
        *(("also", f"for {each.machine.name}: {origin}") for each in others for origin in each.origins[:2]),
        *tools(),
    ]
    lines += [("file", f"{manifest.hash_of(tree.path(name))}  {name}") for name in tree.files()]
    return "".join(f"{name} {value}\n" for name, value in lines)
