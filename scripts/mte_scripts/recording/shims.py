"""The C in scripts/shims, which is compiled once for each version of its sources. A compiler driver imports this: it takes little time."""

import os

from mte_scripts import places, private_folder
from mte_scripts.entry_point import Refusal

try:
    from _sha1 import sha1  # hashlib loads OpenSSL, which takes longer than all else here
except ImportError:
    from hashlib import sha1

SHIMS = os.path.join(places.SCRIPTS, "shims")


def sources_in(folder: str, *endings: str) -> list:
    return sorted(os.path.join(folder, name) for name in os.listdir(folder) if name.endswith(endings))


HEADERS = sources_in(SHIMS, ".h")


def sum_of(flags: list, sources: list) -> str:
    """What stands for a version: it is of the flags, these sources and all headers."""
    whole = sha1(" ".join(flags).encode())
    for path in (*sources, *HEADERS):
        with open(path, "rb") as file:
            whole.update(file.read())
    return whole.hexdigest()[:16]


def compile_alone(words: list, refusal: str) -> None:
    """Runs a compiler, whose own files stand in a folder that nobody else can change."""
    import subprocess

    with private_folder.temporary() as folder:
        if subprocess.run(words, stdin=subprocess.DEVNULL, stdout=2, env={**os.environ, "TMPDIR": folder}).returncode:
            raise Refusal(3, refusal)
