"""What a program sees that a script starts: the environment and the signals that the script itself was started with."""

import _signal  # the module signal takes longer to import
import os


def environment() -> dict:
    """The environment of the script's own start, as bytes. Python adds a language to that of a process that has none."""
    try:
        with open("/proc/self/environ", "rb") as file:
            pairs = [line.partition(b"=") for line in file.read().split(b"\0")]
    except OSError:
        return dict(os.environb)
    return {name: value for name, sign, value in pairs if sign and name}


def take_place(words: list) -> None:
    """Runs a program in the place of the script. Returns only by an OSError."""
    for each in (_signal.SIGPIPE, _signal.SIGXFSZ):  # Python ignores them
        _signal.signal(each, _signal.SIG_DFL)
    os.execvpe(words[0], words, environment())
