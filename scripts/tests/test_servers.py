"""Tests what goes into other programs: memcached's chunk sizes and profiles, on servers of its own on the loopback address. (The tables of
examples/fleet have the part `fleet_servers`.)"""

import contextlib
import os
import re
import shutil
import socket
import subprocess
import threading

from checks import expect, skip
from mte_scripts.formats import LARGEST_SIZE
from mte_scripts.places import SCRIPTS
from server_runs import free_ports, read, script, run_server

# memcached's own chunks from 16 KiB on, as its option -vv lists them
OWN_CHUNKS = [17352, 21696, 27120, 33904, 42384, 52984, 66232, 82792, 103496, 129376, 161720, 202152, 252696, 315872, 394840, 524288]


def test_words(work):
    run_sizes = lambda given, **more: script("memcached_sizes", given=given, **more)
    larger = "-".join(map(str, OWN_CHUNKS[:-1]))
    expect("memcached_sizes: the chunks", run_sizes("classes 7 20 40\n") == f"96-304-624-{larger}\n")
    sheet = script("mte_tool", "tune", "--limit", "2", given="100 3\n640 1\n")
    expect("memcached_sizes: of a sheet", run_sizes(sheet) == f"112-640-{larger}\n")
    expect("memcached_sizes: of a fit", run_sizes("classes 8 41\nlimit 2\nfootprint 1040\nrow 1 1\nrow 1 1\n") == f"112-640-{larger}\n")
    script("memcached_sizes", "--memory", "8", given="classes 7 20 40\n", says=["8 MB", "--limit 2"])
    script("memcached_sizes", "--memory", "1024", given="classes 7 20 40\n")
    expect("memcached_sizes: the largest class", run_sizes("classes 1024") == f"{LARGEST_SIZE}-{larger}\n")
    run_sizes("classes\n", status=2, says=["no class"])
    run_sizes("", status=2, says=["no class line"])
    run_sizes("classes 2 9\n", status=2, says=["class 2 holds 16 bytes"])
    run_sizes("100 3\n", status=2, says=["no class line"])
    for words in (["--memory"], ["--memory", "x"], ["--memory", "0"], ["--memory", "1", "2"], ["--wrong"], ["x"]):
        script("memcached_sizes", *words, given="classes 7\n", status=2)
    items = os.path.join(work, "items")
    with open(items, "w") as file:
        file.write("10 100\n 3\t5 7\n10 100 2\n250 1000000\n")
    # 48 of header, 8 of the compare-and-swap number, the key, 1, the value, 2
    expect("memcached_profile --items", script("memcached_profile", "--items", items) == "67 7\n169 3\nlarge 1\n")
    expect("memcached_profile --no-cas", script("memcached_profile", "--no-cas", "--items", items) == "59 7\n161 3\nlarge 1\n")
    expect("memcached_profile --flags", script("memcached_profile", "--flags", "--items", "-", given="10 100\n") == "173 1\n")
    scaled = script("memcached_profile", "--items", "-", given="10 100 4000000000\n10 200 1\n")
    expect("memcached_profile: counts above 1,000,000,000", scaled == "169 1000000000\n269 1\n", scaled)
    script("memcached_profile", "--items", "-", given="", status=3, says=["no item"])
    script("memcached_profile", "--items", "--", "--flags", status=2, says=["--flags can't be read"])
    script("memcached_sizes", "--memory", "1024", "--", given="classes 7 20 40\n")
    for line in ("10", "x 5", "0 5", "251 5", "10 5 5 5", "10 -5"):
        script("memcached_profile", "--items", "-", given=f"10 5\n{line}\n", status=2, says=["line 2"])
    script("memcached_profile", "--items", os.path.join(work, "missing"), status=2, says=["No such file"])
    port = free_ports(1)[0]
    script("memcached_profile", f"127.0.0.1:{port}", status=3, says=["does not answer"])
    for words in ([], ["127.0.0.1"], ["127.0.0.1:0"], ["127.0.0.1:70000"], ["--wrong", "a:1"], ["--flags", "a:1"],
                  ["--each", "--items", items], ["--each", "--each", "a:1"], ["a:1", "b:1"]):
        script("memcached_profile", *words, status=2)
    for name in ("memcached_sizes", "memcached_profile"):
        shown = script(name, "--help")
        expect(f"{name} --help", "Usage: " in shown and max(map(len, shown.splitlines())) <= 132, shown)


def test_hostile():
    """Servers that answer something else than memcached does: each is one line on standard error, and status 3."""
    answers = {
        b"STAT 64 " + b"9" * 5000 + b"\r\nEND\r\n": "does not answer as memcached 1.6 does",
        b"STAT " + b"9" * 5000 + b" 1\r\nEND\r\n": "does not answer as memcached 1.6 does",
        b"STAT 64 1 " * 1_000_000: "does not answer as memcached 1.6 does",
        b"\x1b[31mred\r\n": "\\x1b[31mred",
        b"STAT 64 1\r\n": "before the end of its answer",
    }
    for answer, says in answers.items():
        with socket.create_server(("127.0.0.1", 0)) as server:
            thread = threading.Thread(target=answer_once, args=(server, answer))
            thread.start()
            words = [os.path.join(SCRIPTS, "memcached_profile"), f"127.0.0.1:{server.getsockname()[1]}"]
            done = subprocess.run(words, capture_output=True, text=True, timeout=60)
            expect(f"an answer {answer[:20]}", done.returncode == 3 and says in done.stderr and done.stderr.count("\n") == 1, done.stderr)
            thread.join()


def answer_once(server, answer):
    with server.accept()[0] as connection, contextlib.suppress(OSError):
        connection.recv(100)
        connection.sendall(answer)


class Server:
    """A connection to memcached."""

    def __init__(self, port):
        self.socket = socket.create_connection(("127.0.0.1", port))
        self.answer = self.socket.makefile("rb")

    def store(self, key, length, flags=0):
        self.socket.sendall(b"set %b %d 0 %d\r\n%b\r\n" % (key, flags, length, bytes(length)))
        return self.answer.readline()

    def stats(self, what):
        self.socket.sendall(b"stats %b\r\n" % what)
        return dict(line.decode().split()[1:3] for line in iter(self.answer.readline, b"END\r\n"))

    def end(self):
        self.answer.close()
        self.socket.close()


def memcached_words(port, *more):
    user = ["-u", "nobody"] if os.geteuid() == 0 else []
    return ["memcached", *user, "-l", "127.0.0.1", "-p", str(port), "-U", "0", "-t", "1", "-m", "64", "-vv", *more]


def listed_chunks(log):
    return [int(size) for size in re.findall(r"slab class +\d+: chunk size +(\d+)", read(log))]


def test_server(work):
    if not shutil.which("memcached"):
        skip("without memcached: its chunk sizes and profiles")
        return
    log = os.path.join(work, "memcached.log")
    port = free_ports(1)[0]
    name = f"127.0.0.1:{port}"
    with run_server(memcached_words(port), port, log):
        larger = [size for size in listed_chunks(log) if size > LARGEST_SIZE]
        expect("memcached's own chunks above the largest class", larger == OWN_CHUNKS, larger)
        script("memcached_profile", name, status=3, says=["-o track_sizes"])
        script("memcached_profile", "--each", name, status=3, says=["no item"])
    chunks = script("memcached_sizes", given="classes 7 20 40\n").strip()
    with run_server(memcached_words(port, "-o", f"track_sizes,slab_sizes={chunks}"), port, log):
        expect("the chunks that memcached makes", listed_chunks(log) == [96, 304, 624, *OWN_CHUNKS], listed_chunks(log))
        server = Server(port)
        counts_items(server, name)
        server.end()
    with run_server(memcached_words(port, "-C", "-o", f"slab_sizes={chunks}"), port, log):
        server = Server(port)
        expect("an item is stored", server.store(b"0123456789", 100) == b"STORED\r\n")
        of_items = script("memcached_profile", "--no-cas", "--items", "-", given="10 100\n")
        expect("memcached_profile --no-cas: not memcached's own count", script("memcached_profile", "--each", name) == of_items, of_items)
        server.end()
    most = script("memcached_sizes", given="classes " + " ".join(str(number) for number in range(5, 37)) + "\n").strip()
    with run_server(memcached_words(port, "-o", f"slab_sizes={most}"), port, log):
        expect("memcached with 32 tuned chunks", listed_chunks(log) == [*range(64, 576, 16), *OWN_CHUNKS], read(log))


def counts_items(server, name):
    """Each item counts in its chunk's size."""
    # a key of 10 bytes, so an item of 69 bytes and its value: up to each chunk, and one byte above it
    wanted = {96: 0, 304: 0, 624: 0, 17352: 0}
    sizes = {96: 5, 97: 6, 304: 7, 305: 8, 624: 9, 625: 10, LARGEST_SIZE: 2, LARGEST_SIZE + 1: 3}
    number = 0
    for size, items in sizes.items():
        wanted[next(chunk for chunk in wanted if chunk >= size)] += items
        for _ in range(items):
            expect("an item is stored", server.store(b"%010d" % number, size - 69) == b"STORED\r\n")
            number += 1
    stats = server.stats(b"slabs")
    got = {int(stats[key]): int(stats[key.split(":")[0] + ":used_chunks"]) for key in stats if key.endswith(":chunk_size")}
    expect("stats slabs: the items in each chunk size", got == wanted, got)
    exact = script("memcached_profile", "--each", name)
    expect("memcached_profile --each", exact == f"96 5\n97 6\n304 7\n305 8\n624 9\n625 10\n{LARGEST_SIZE} 2\nlarge 3\n", exact)
    # in steps of 32: 97 is in that up to 128, 304 and 305 in that up to 320, 624 and 625 in that up to 640, the largest in that up to 16,384
    steps = script("memcached_profile", name, says=["steps of 32"])
    expect("memcached_profile", steps == "96 5\n128 6\n320 15\n640 19\nlarge 5\n", steps)
    expect("an item is stored", server.store(b"flags", 100, flags=1) == b"STORED\r\n")
    of_items = script("memcached_profile", "--flags", "--items", "-", given="5 100\n")
    expect("memcached_profile --flags: not memcached's own count", of_items in script("memcached_profile", "--each", name), of_items)
