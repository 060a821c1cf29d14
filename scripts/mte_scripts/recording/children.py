"""A program that a script runs to its end, whatever signal comes meanwhile; and what looks at it."""

import contextlib
import signal
import subprocess
import threading
from collections.abc import Callable, Iterator
from typing import Any

HANDED_ON = (signal.SIGTERM, signal.SIGHUP)


def run(words: "list[str]", grace: "float | None" = None, signals: "list | None" = None, **how: Any) -> int:
    """The status of a program, which is negative where a signal ended it. Ctrl-C reaches the program too, and is left to it; SIGTERM and
    SIGHUP are handed on to it. The script goes on then: what the program did until its end counts. With GRACE, it is killed where it is
    still there so many seconds after a signal that was handed on. SIGNALS takes those that came."""
    child: list = []
    asked: list = []
    came: list = [] if signals is None else signals
    kept: dict = {}

    def hand_on(number: int, _: object) -> None:
        asked.append(number)
        came.append(number)
        for one in child:
            one.send_signal(number)
            if grace is not None and len(asked) == 1:
                killer = threading.Timer(grace, one.kill)
                killer.daemon = True
                killer.start()

    try:
        # the handlers are set before the start, so that no signal falls in between; a program that is started does not inherit them
        for each in (signal.SIGINT, *HANDED_ON):
            if signal.getsignal(each) != signal.SIG_IGN:
                kept[each] = signal.signal(each, hand_on if each in HANDED_ON else lambda number, _: came.append(number))
        started = subprocess.Popen(words, **how)
        child.append(started)
        early, asked[:] = list(asked), []
        for number in early:
            hand_on(number, None)
        return started.wait()
    finally:
        for each, handler in kept.items():
            signal.signal(each, handler)


@contextlib.contextmanager
def call_each(seconds: float, look: "Callable[[], object]") -> "Iterator[None]":
    """Meanwhile a thread calls this each so many seconds, until it returns something true."""
    end = threading.Event()

    def watch() -> None:
        while not end.wait(seconds) and not look():
            pass

    watcher = threading.Thread(target=watch, daemon=True)
    watcher.start()
    try:
        yield
    finally:
        end.set()
        watcher.join()
