"""How each Python script begins and ends. A script imports this alone, and has it import what it runs:

    sys.dont_write_bytecode = True
    sys.path.insert(0, os.path.dirname(os.path.realpath(__file__)))
    from mte_scripts import running
    entry_point.run("merge_profiles", "recording.merge_profiles.merge")    # it raises Refusal(2, "what is wrong ..")

From the import on, Ctrl-C ends the script quietly with status 130, as SIGTERM and SIGHUP do with 143 and 129; and what nobody foresaw ends
it with status 3 and one line on standard error: no traceback, and no status 1, which means something else in most scripts. Nothing changes
for a test that imports this."""

import _signal  # the module signal alone takes longer to import than this one
import errno
import os
import sys
import types
from _collections_abc import Callable

FAILED, INTERRUPTED = 3, 130
PATH = "/usr/local/bin:/usr/bin:/bin"  # where none is given: a compiler finds its parts by it
ENDING = (_signal.SIGTERM, _signal.SIGHUP)


class Refusal(Exception):
    """Ends a script with this status and this line on standard error: 2 refuses words or input, 3 is a failure."""

    def __init__(self, status: int, text: str) -> None:
        super().__init__(text)
        self.status = status
        self.text = text


def printable(text: str) -> str:
    """A text that may come from outside, with those characters escaped that move the cursor, or that are half of one."""
    return "".join(c if c.isprintable() else c.encode("unicode_escape", "surrogatepass").decode() for c in text.replace("\t", " "))


def say(name: str, text: str) -> None:
    """A line on standard error. A name of a file may have any character: those that move the cursor are shown escaped."""
    words = sys.modules.get("mte_scripts.shell_words")
    if hasattr(words, "help_text"):  # it is imported whole, and knows what scripts are called
        name, text = words.command_name(name), words.rename_scripts(text)
    try:
        if sys.stderr is not None:
            print(f"{name}: {printable(text)}", file=sys.stderr, flush=True)
    except OSError:
        pass  # there is nowhere left to say it


def fail(name: str, error: BaseException) -> int:
    """Says in a line what nobody foresaw, and where; the status."""
    if isinstance(error, BrokenPipeError):
        say(name, "standard output can't be written: Broken pipe")
    elif isinstance(error, MemoryError):
        say(name, "there is not enough memory for this input")
    elif isinstance(error, OSError) and error.errno in (errno.EMFILE, errno.ENFILE):
        say(name, f"too few files may be open at once (ulimit -n): {error.strerror}")
    else:
        place = error.__traceback__
        while place and place.tb_next:
            place = place.tb_next
        where = f" ({os.path.basename(place.tb_frame.f_code.co_filename)}:{place.tb_lineno})" if place else ""
        what = " ".join(f"{type(error).__name__}: {error}".split())[:300]
        say(name, f"this was not foreseen, please report it: {what}{where}")
    return FAILED


def end(name: str, status: int) -> None:
    """Ends the process. Python's own end would write what is still to be printed, and speak of an output that fails."""
    for stream in (sys.stdout, sys.stderr):
        try:
            if stream is not None:
                stream.flush()
        except OSError as error:
            if stream is sys.stdout:
                say(name, f"standard output can't be written: {error.strerror}")
                status = status or FAILED
            os.dup2(os.open(os.devnull, os.O_WRONLY), stream.fileno())
    sys.exit(status)


def import_function(path: str) -> "Callable[[list[str]], int | None]":
    """The function of a module of this package."""
    module, _, function = path.rpartition(".")
    return getattr(__import__(f"mte_scripts.{module}", fromlist=[function]), function)


def part(module: str) -> "types.ModuleType | None":
    """A module of this package whose folder a copy may be without, by its name from there on; None where it is."""
    folder = os.path.join(os.path.dirname(os.path.realpath(__file__)), *module.split(".")[:-1])
    return __import__(f"mte_scripts.{module}", fromlist=["__name__"]) if os.path.isfile(os.path.join(folder, "__init__.py")) else None


def run(name: str, main: "str | Callable[[list[str]], int | None]", prints: bool = True) -> None:
    """Ends the process with what main(words) returns as the status, None for 0, or as it is refused; MAIN is a function, or names one of a
    module of this package. A script that PRINTS wants standard output."""
    main = import_function(main) if isinstance(main, str) else main
    # what main has made is removed on its way out
    if _signal.getsignal(_signal.SIGINT) is quit_quietly:
        _signal.signal(_signal.SIGINT, _signal.default_int_handler)
    ending = [each for each in ENDING if _signal.getsignal(each) == _signal.SIG_DFL]
    for each in ending:
        _signal.signal(each, leave)
    try:
        if prints and sys.stdout is None:
            raise Refusal(FAILED, "standard output is closed")
        status = main(sys.argv[1:]) or 0
    except Refusal as refused:
        say(name, refused.text)
        status = refused.status
    except KeyboardInterrupt:
        status = INTERRUPTED
    except SystemExit as asked:
        status = asked.code or 0  # type: ignore[assignment]  # a text is printed by Python's own end
    except Exception as error:
        status = end_within(error) or fail(name, error)
    folders = sys.modules.get("mte_scripts.private_folder")
    if hasattr(folders, "remove_left"):  # it is imported whole
        folders.remove_left()
    for each in ending:
        _signal.signal(each, _signal.SIG_DFL)
    begin()
    end(name, status)


def end_within(error: "BaseException | None") -> int:
    """The status of an end by a signal in which an error came, as in a library's way out; else 0."""
    while error:
        if isinstance(error, KeyboardInterrupt):
            return INTERRUPTED
        if isinstance(error, SystemExit) and error.code in (128 + each for each in ENDING):
            return int(str(error.code))
        error = error.__context__
    return 0


def leave(number: int, frame: object) -> None:
    sys.exit(128 + number)


def quit_quietly(number: int, frame: object) -> None:
    os._exit(INTERRUPTED)


def unforeseen(kind: type, error: BaseException, trace: object) -> None:
    """In place of a traceback while modules are imported. `python3 -i` shows an end by this too."""
    if isinstance(error, SystemExit):
        os._exit(error.code if isinstance(error.code, int) else FAILED)
    os._exit(INTERRUPTED if kind is KeyboardInterrupt else fail(os.path.basename(sys.argv[0]), error))


def begin() -> None:
    os.environ.setdefault("PATH", PATH)
    if _signal.getsignal(_signal.SIGINT) is _signal.default_int_handler:  # and not ignored, as `nohup` and `&` may leave it
        _signal.signal(_signal.SIGINT, quit_quietly)
    sys.excepthook = unforeseen


def is_run() -> bool:
    """Whether the process runs a script of the folder of the package, and no test."""
    script = os.path.realpath(getattr(sys.modules["__main__"], "__file__", None) or os.devnull)
    return os.path.dirname(script) == os.path.dirname(os.path.dirname(os.path.realpath(__file__)))


if is_run():
    begin()
