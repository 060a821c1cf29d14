"""A PostgreSQL of a test's own, and the load of examples/fleet as its README has it."""

import contextlib
import os
import re
import shutil
import subprocess
from collections.abc import Iterator

from mte_scripts import private_folder

COMMANDS = os.path.join(os.path.dirname(os.path.realpath(__file__)), "../../examples/fleet/README.md")


def programs() -> str:
    """The folder of the server's programs, or an empty text where PostgreSQL is not installed."""
    path = os.pathsep.join([os.environ.get("PATH", ""), *(f"/usr/lib/postgresql/{version}/bin" for version in range(40, 11, -1))])
    found = shutil.which("initdb", path=path)
    return os.path.dirname(os.path.realpath(found)) if found and shutil.which("psql") else ""


@contextlib.contextmanager
def run_server() -> Iterator[dict[str, str]]:
    """A server in a folder of its own, on a socket there. What a client's environment has to have; it is ended at the end."""
    with private_folder.temporary() as folder:
        user = []
        if os.geteuid() == 0:  # it refuses to run as root
            shutil.chown(folder, "postgres")
            user = ["runuser", "-u", "postgres", "--"]
        data = os.path.join(folder, "data")
        control = [*user, f"{programs()}/pg_ctl", "-D", data, "-w", "-s", "-l", os.path.join(folder, "log")]
        make = [*user, f"{programs()}/initdb", "-D", data, "-A", "trust", "-N", "-U", "fleet", "-E", "UTF8", "--locale=C"]
        how = {"cwd": folder, "stdin": subprocess.DEVNULL, "stdout": subprocess.DEVNULL, "check": True, "timeout": 60}
        subprocess.run(make, **how)
        subprocess.run([*control, "-o", f"-c listen_addresses= -c fsync=off -k {folder}", "start"], **how)
        try:
            yield {"PGHOST": folder, "PGUSER": "fleet", "PGDATABASE": "postgres"}
        finally:
            subprocess.run([*control, "-m", "immediate", "stop"], **how)


def load() -> str:
    """The commands that load rows.tsv, and make sums.tsv of all rows in the table."""
    with open(COMMANDS, encoding="utf-8") as file:
        lines = re.findall(r"(?m)^    (.*(?:\| psql .*postgresql\.sql|psql .*postgresql_sums\.sql > sums\.tsv))$", file.read())
    if len(lines) != 2:
        raise AssertionError(f"examples/fleet/README.md has not one load and one query: {lines}")
    return " && ".join(lines)
