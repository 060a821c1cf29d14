#!/usr/bin/env python3
"""Puts a redis-server of its own under load, over a socket in a new folder: strings, lists and hashes of many sizes, in phases in which their
number grows and falls. `redis_load.py SECONDS` ends with status 0 once the server has ended."""

import os
import random
import socket
import subprocess
import sys
import tempfile
import time

KEYS, PHASES, PIPELINE = 60_000, 20, 200


def command(*words: bytes) -> bytes:
    return b"*%d\r\n" % len(words) + b"".join(b"$%d\r\n%s\r\n" % (len(word), word) for word in words)


def commands(rng: random.Random, sizes: "list[int]", share: float) -> "list[bytes]":
    """Of a pipeline. SHARE is that of the keys that are in use."""
    values, found = b"x" * 20_000, []
    for _ in range(PIPELINE):
        number, size = int(KEYS * rng.random()), rng.choice(sizes)
        key = b"key:%d" % number
        if number > KEYS * share:
            found.append(command(b"DEL", key))
        elif number % 3 == 0:
            found.append(command(b"SET", key, values[:size]))
        elif number % 3 == 1:
            found.append(command(b"LPUSH", key, values[: size // 8]) if rng.random() < 0.9 else command(b"LTRIM", key, b"0", b"9"))
        else:
            found.append(command(b"HSET", key, b"field:%d" % (number * size % 40), values[: size // 16]))
    return found


def replies(connection: socket.socket, number: int) -> None:
    """Reads so many; each is one line."""
    while number:
        text = connection.recv(1 << 16)
        if not text or b"-ERR" in text:
            sys.exit(f"redis-server says {text[:100]!r}")
        number -= text.count(b"\r\n")


def load(connection: socket.socket, seconds: float) -> None:
    rng, begin = random.Random(1), time.monotonic()
    sizes = [rng.randrange(1, 16_000) if rng.random() < 0.05 else rng.randrange(1, 1_200) for _ in range(700)]
    while (seen := time.monotonic() - begin) < seconds:
        phase = int(seen * PHASES / seconds)
        favoured = sizes[phase * 31 % 600 :][:100]
        found = commands(rng, favoured + sizes, 0.3 + phase * 7 % PHASES / PHASES * 0.7)
        connection.sendall(b"".join(found))
        replies(connection, len(found))


def main() -> int:
    with tempfile.TemporaryDirectory() as folder:
        path = os.path.join(folder, "socket")
        words = ["redis-server", "--port", "0", "--unixsocket", path, "--save", "", "--dir", folder, "--loglevel", "warning"]
        with subprocess.Popen(words, stdout=subprocess.DEVNULL) as server:
            while not os.path.exists(path) and server.poll() is None:
                time.sleep(0.05)
            with socket.socket(socket.AF_UNIX) as connection:
                connection.connect(path)
                load(connection, float(sys.argv[1]))
                connection.sendall(command(b"SHUTDOWN", b"NOSAVE"))
        return server.returncode


if __name__ == "__main__":
    sys.exit(main())
