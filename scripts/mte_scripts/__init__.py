"""The scripts: a command of the folder above is one line that runs a function of these modules. They need the standard library alone."""

import os
import sys
from _frozen_importlib_external import SourceFileLoader  # the module importlib.machinery takes longer to import


def byte_code() -> "str | None":
    """The folder of the user's cache for byte code, made if it is missing; None where another user can change what is in it or where it is."""
    cache = os.environ.get("XDG_CACHE_HOME") or os.path.join(os.environ.get("HOME", ""), ".cache")
    if not cache.startswith("/"):
        return None
    path, own = "/", (0, os.geteuid())
    try:
        for name in (*os.path.realpath(cache).split("/"), "mte_tool", "byte_code"):
            path = os.path.join(path, name)
            if not os.path.lexists(path):
                os.mkdir(path, 0o700)
            status = os.lstat(path)
            is_shared = status.st_mode & 0o022 and not status.st_mode & 0o1000  # and not as /tmp is
            if status.st_uid not in own or status.st_mode & 0o170000 != 0o040000 or is_shared:
                return None
    except OSError:
        return None
    return path if status.st_uid == own[1] and not status.st_mode & 0o022 else None


def write_whole(_: object, path: str, data: bytes, **how: int) -> None:
    """Puts byte code into the cache, all of it or nothing. Python itself leaves a part of it where the disk is full, which no later run can read."""
    new = f"{path}.{os.getpid()}"
    try:
        os.makedirs(os.path.dirname(path), 0o700, exist_ok=True)
        try:
            with open(new, "xb") as file:
                file.write(data)
            os.replace(new, path)
        except BaseException:
            os.unlink(new)
            raise
    except OSError:
        pass


# a script has it off, so that nothing is left beside the sources
if sys.dont_write_bytecode and not sys.flags.dont_write_bytecode:
    sys.pycache_prefix = byte_code()
    sys.dont_write_bytecode = sys.pycache_prefix is None
    SourceFileLoader.set_data = write_whole  # type: ignore[method-assign]
