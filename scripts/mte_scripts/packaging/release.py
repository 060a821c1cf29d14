"""Puts all packages of a commit into one folder, with checksums and notes. `release --help` says all."""

import argparse
import os
import re
import shutil

from mte_scripts import manifest, private_folder, text_files
from mte_scripts.entry_point import Refusal
from mte_scripts.packaging import machines, package, packaging, provenance
from mte_scripts.packaging.machines import Machine
from mte_scripts.packaging.packaging import Parts
from mte_scripts.packaging.tree import Tree, run
from mte_scripts.places import ROOT


HELP = f"""\
Make a release of this commit: the packages of scripts/package, their SHA256SUMS, and NOTES.md, in a new folder, for whoever publishes it.

Usage: release [OPTION..] FOLDER

{package.OPTIONS}  --machine NAME   for processors of this kind alone, x86_64 or aarch64, and not for both: those of others than this machine's are made as with
                   --modules, by a cross compiler
  --gate FILE      what .ci/run printed for this commit, for the notes
{package.NAMES}
It is refused, and nothing is written, where a file differs from the commit or is in none, where the program or the library is not known
to be proved, where a part can't be made, or where the gate failed. NOTES.md says what was proved and tested, by which kit and tools, and
which commits came after the last tag.
With --modules whoever has Debian's compilers makes the same bytes, without the kit.

Exit status:
  0  the release is there
  1  it is refused, and standard error says why
  2  the words are refused, or a file that they name
  3  a tool is missing or failed, or a file can't be written

Example:
  git tag v1.0.0 && scripts/release ../mte-tool-1.0.0 && cd ../mte-tool-1.0.0 && sha256sum -c SHA256SUMS
"""
# what .ci/run prints of the scripts' tests, and of rt
COUNTS = re.compile(r"(?m)^(?:all: |rt: )?(\d+) passed, (\d+) failed\b.*$")


def want_clean() -> None:
    if changed := run(["git", "-C", ROOT, "status", "--porcelain"]).splitlines():
        raise Refusal(
            1,
            f"{len(changed)} files differ from the commit or are in none, as `git status` says: commit them, or "
            "remove them; "
            f"the first is {changed[0][3:]}",
        )


def counts_in(path: "str | None") -> str:
    """What the gate counted, from what it printed. It is refused where something failed."""
    if path is None:
        return "The counts of the gate, `.ci/run`, were not given."
    text = text_files.read(path).decode(errors="replace")
    lines = list(COUNTS.finditer(text))
    if not lines:
        raise Refusal(2, f"{path} has no line `N passed, M failed`: name the file that has what .ci/run printed")
    if failed := [found[0] for found in lines if found[2] != "0"]:
        raise Refusal(1, f"the gate failed: {failed[0]}")
    return "The gate, `.ci/run`, counted:\n\n" + "\n".join(f"    {found[0]}" for found in lines)


def last_tag() -> str:
    """The last tag before this commit, or nothing."""
    has_parent = len(run(["git", "-C", ROOT, "rev-list", "-1", "--parents", "HEAD"]).split()) > 1
    tags = run(["git", "-C", ROOT, "tag", "--merged", "HEAD^", "--sort=-creatordate"]).split() if has_parent else []
    return tags[0] if tags else ""


def changes() -> str:
    if not (tag := last_tag()):
        return "This is the first release: there is no earlier tag."
    subjects = run(["git", "-C", ROOT, "log", "--no-merges", "--format=- %s", f"{tag}..HEAD"]).strip()
    return f"Since {tag}:\n\n{subjects or '- nothing'}"


def trust(parts: Parts) -> str:
    """What was proved of the packages for one machine."""
    verdict = f"    verdict {parts.manifest.verdict}\n" if parts.manifest.verdict else ""
    return f"""\
For {parts.machine.name}: {packaging.trust_text(parts)}

    proofs {parts.manifest.proofs}
    sources {parts.manifest.sources}
{verdict}"""


def notes(every: "list[Parts]", tested: str) -> str:
    parts = every[0]
    tag = f", tag v{parts.number}" if parts.version == parts.number else ""
    tools = "\n".join(f"- {text}" for _, text in provenance.tools())
    return f"""\
# mte_tool {parts.version}

Commit {parts.commit}{tag}, built with {parts.kit}.

## What was proved

The proofs are in the repository, and `rt ci` repeats them.

{chr(10).join(map(trust, every))}
## What was tested

{tested}

## What changed

{changes()}

## The same bytes

Whoever has {"these tools" if every[0].manifest.proofs == "by-project" else "this kit and these tools"} builds the same files by `scripts/release FOLDER` in a clone of the commit, and compares them by
`sha256sum -c SHA256SUMS`. Each package has a `{provenance.NAME}` with the hashes of its files and of what was built.

{tools}
"""


def want_whole(parts: Parts) -> None:
    if parts.left_out:
        raise Refusal(1, f"a release has all parts, and this one would lack {parts.left_out[0]}")
    if parts.unproved:
        raise Refusal(1, f"the library is not known to be proved: {parts.unproved}")


def want_proved(program: str) -> None:
    if why := manifest.why_unproved(program, ROOT):
        raise Refusal(1, f"the program is not known to be proved: {why}")
    if manifest.read(program).proofs == "by-project":
        raise Refusal(1, "the program is not known to be proved on this machine: `scripts/mte_tool --prove`, or give --modules")


def machines_of(options: argparse.Namespace) -> "list[Machine]":
    """The machines that it is for, this one first."""
    names = [options.machine] if options.machine else sorted(machines.MACHINES, key=lambda name: name != machines.HERE.name)
    found = [machines.machine_of(name) for name in names]
    for machine in found:
        if missing := machines.missing_tool(machine):
            raise Refusal(3, f"{missing}; --machine {machines.HERE.name} leaves the packages for {machine.name} out")
    return found


def new_folder(folder: str) -> None:
    """A folder with files of before would be a mixture of two releases."""
    os.makedirs(folder, exist_ok=True)
    if os.listdir(folder):
        raise Refusal(2, f"{folder} is not empty")


def release(words: list) -> None:
    options, folder = package.options_of(words, HELP)
    package.want_tools("dpkg-deb")
    os.umask(0o022)
    want_clean()
    tested = counts_in(options.gate)
    chosen = machines_of(options)
    if machines.HERE in chosen and not options.modules:
        want_proved(package.program_of(options))
    try:
        new_folder(folder)
        with private_folder.temporary() as work:
            every = [package.collect(options, machine, os.path.join(work, machine.name)) for machine in chosen]
            for parts in every:
                want_whole(parts)
            made = Tree(f"{work}/made")
            os.mkdir(made.root)
            package.make_packages(every, made.root, f"{work}/staged")
            # the sums are of the packages alone, which whoever builds them again compares
            made.write("SHA256SUMS", "".join(f"{manifest.hash_of(made.path(name))}  {name}\n" for name in made.files()))
            made.write("NOTES.md", notes(every, tested))
            want_clean()
            for name in made.files():
                shutil.move(made.path(name), os.path.join(folder, name))
    except OSError as error:
        raise Refusal(3, f"{error.filename or folder}: {error.strerror}") from None
    text_files.write("".join(f"{os.path.join(folder, name)}\n" for name in sorted(os.listdir(folder))))
