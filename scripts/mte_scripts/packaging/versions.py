"""The commit that packages are made of, and the versions that they have for it."""

import datetime
import re

from mte_scripts.packaging.tree import of_sdist, run
from mte_scripts.places import ROOT


def commit() -> "tuple[str, datetime.datetime, str, bool]":
    """The number of the commit, its time and its author, and whether files differ from it."""
    if its := of_sdist():
        time = datetime.datetime.fromtimestamp(its["seconds"], datetime.timezone.utc)
        return its["number"], time, its["author"], its["changed"]
    git = ["git", "-C", ROOT]
    number, seconds, author = run([*git, "log", "-1", "--format=%H%n%ct%n%an <%ae>"]).splitlines()
    time = datetime.datetime.fromtimestamp(int(seconds), datetime.timezone.utc)
    return number, time, author, bool(run([*git, "status", "--porcelain", "--untracked-files=no"]))


def version_of(number: str, commit_number: str, time: datetime.datetime, is_changed: bool) -> str:
    """The version of the packages: the program's number for a commit with its tag, and else the commit's time and
    number too. A `~` sorts below the release that is to come, a `+` above the one that was."""
    if its := of_sdist():
        return its["version"]
    tags = {how: run(["git", "-C", ROOT, "tag", how, "HEAD"]).split() for how in ("--points-at", "--merged")}
    if f"v{number}" in tags["--points-at"] and not is_changed:
        return number
    mark = "+" if f"v{number}" in tags["--merged"] else "~"
    return f"{number}{mark}git{time:%Y%m%d%H%M%S}.g{commit_number[:12]}{'.changed' if is_changed else ''}"


def pip_version(version: str) -> str:
    """The version of the packages in the form of PEP 440. Files that differ from the commit are a local version, which
    PyPI refuses."""
    number, mark, rest = re.fullmatch(r"([0-9.]+)(?:([~+])git(.*))?", version).groups()
    if mark is None:
        return number
    time, _, name = rest.partition(".")
    return f"{number}.{'dev' if mark == '~' else 'post'}{time}{'+changed' if name.endswith('.changed') else ''}"
