"""Building the static libraries of this repository, or the program. By hand they are built by `rt lib`, which proves them and keeps what it proved. In the
gate `rt ci` has just proved all crates, but makes no static library and keeps nothing for `rt lib`: there, where MTE_AFTER_CI is set, a
static library is proved once more over the libraries that `rt ci` left, and built of that."""

import os
import shutil
import subprocess
from pathlib import Path
from typing import Any

from mte_scripts import text_files
from mte_scripts.builds.crate_list import CrateList
from mte_scripts.places import ROOT


def kit() -> "str | None":
    """The toolchain's folder, or None."""
    command = shutil.which("rt")
    return command and os.path.dirname(os.path.dirname(os.path.realpath(command)))


def jobs() -> "list[str]":
    return ["--jobs", os.environ.get("RT_JOBS", "1")]


def run(words: "list[str]", **how: Any) -> str:
    """What a command prints, on both outputs; a failure ends the script."""
    return text_files.output_of(words, stderr=subprocess.STDOUT, **how).decode(errors="replace")


def crates_below(crate: str) -> "list[str]":
    return [name for name in CrateList(ROOT).below([crate]) if name != crate]


def are_left(crate: str) -> bool:
    """Whether `rt ci` has just left each library below the crate. What it built has no stamp; a library with one was there before it ran."""
    def is_left(name: str) -> bool:
        place = f"{ROOT}/crates/{name}/out/rlib"
        return os.path.exists(f"{place}/{name}.rlib/format") and not os.path.exists(f"{place}/stamp")

    return bool(os.environ.get("MTE_AFTER_CI")) and all(map(is_left, crates_below(crate)))


def is_cheap(crate: str) -> bool:
    """Whether the crate can be built without a proof of those below it: `rt ci` left their libraries, or `rt lib` kept them."""
    return are_left(crate) or all(os.path.exists(f"{ROOT}/crates/{name}/out/rlib/stamp") for name in crates_below(crate))


def is_program(crate: str) -> bool:
    return os.path.exists(f"{ROOT}/crates/{crate}/src/main.rt")


def words(crate: str) -> "list[str]":
    """The crate, its kind and its libraries, for the compiler."""
    crates = CrateList(ROOT)
    kind = ["src/main.rt"] if is_program(crate) else ["src/lib.rt", "--crate-type", "staticlib"]
    said = ["--crate-name", crate, *kind, "-L", f"dependency={kit()}/rlibs"]
    for name in ["std", *crates.stands_on[crate]]:
        library = f"{ROOT}/crates/{name}/out/rlib/{name}.rlib" if name in crates.stands_on else f"{kit()}/rlibs/{name}.rlib"
        said += ["--extern", f"{name}={library}"]
    for name in crates_below(crate):
        said += ["-L", f"dependency={ROOT}/crates/{name}/out/rlib"]
    return [*said, "--antt-project", f"{kit()}/rattle/logic/antt-project.json"]


def build(crate: str, archive: str, toolchain: str) -> str:
    """Builds the static library or the program by this toolchain's compiler, of what was proved; what the proof printed."""
    place = os.path.join(ROOT, "crates", crate)
    over = ["--logic-built", f"{kit()}/logic_built"]
    made = ["--backend", "llvm", "--toolchain", toolchain, "-o", archive]
    if not are_left(crate):
        said = run(["rt", *(["run", *jobs(), "--", "--version"] if is_program(crate) else ["lib", *jobs()])], cwd=place)
        run([f"{kit()}/bin/rattle", "build", *words(crate), *over, "--incremental", "out/incremental", *made], cwd=place)
        return said
    # one proof serves each build of the crate; of another text, or over other libraries, the compiler refuses it
    proved, log = f"{place}/out/proved", f"{place}/out/proved.log"
    compiled = [f"{kit()}/bin/rattle", "build", *words(crate), "--crate-checked", proved, *made]
    if os.path.exists(proved) and not subprocess.run(compiled, cwd=place, capture_output=True, stdin=subprocess.DEVNULL).returncode:
        return Path(log).read_text(encoding="utf-8") if os.path.exists(log) else ""  # what an earlier proof printed, where it is kept
    shutil.rmtree(proved, ignore_errors=True)
    os.makedirs(os.path.dirname(proved), exist_ok=True)
    said = run([f"{kit()}/bin/rattle", "check", *words(crate), *over, *jobs(), "-o", proved], cwd=place)
    Path(log).write_text(said, encoding="utf-8")
    run(compiled, cwd=place)
    return said


def make(folder: str, crate: str) -> str:
    """Builds libCRATE.a in that folder; what the proof printed."""
    archive, place = os.path.join(os.path.abspath(folder), f"lib{crate}.a"), os.path.join(ROOT, "crates", crate)
    if are_left(crate):
        return build(crate, archive, f"{kit()}/toolchain")
    said = run(["rt", "lib", *jobs()], cwd=place)
    shutil.copyfile(f"{place}/out/lib{crate}.a", archive)
    return said
