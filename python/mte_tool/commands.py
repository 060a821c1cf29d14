"""The commands that pip installs beside this package: mte_tool, and mte_NAME for each script. Each takes the place of the process."""

import os
import signal
import sys

FILES = os.path.join(os.path.dirname(os.path.realpath(__file__)), "files")


def run() -> None:
    """Runs the command whose name the process has."""
    name = os.path.basename(sys.argv[0])
    # as their first line has it
    script = [] if name == "mte_tool" else ["-ISXutf8", os.path.join(FILES, "scripts", name[len("mte_") :])]
    program = sys.executable if script else os.path.join(FILES, name)
    for each in (signal.SIGPIPE, signal.SIGXFSZ):  # which Python ignores, and a program would too
        signal.signal(each, signal.SIG_DFL)
    try:
        os.execv(program, [program, *script, *sys.argv[1:]])
    except OSError as error:
        sys.exit(f"{name}: {program} can't be run: {error.strerror}")
