"""What the tests of servers share (`servers`, `fleet_servers`): how a command is run, and a server of a test's own on the loopback address."""

import contextlib
import os
import signal
import socket
import subprocess
import time

from checks import expect
from mte_scripts.places import SCRIPTS


def run(words, given="", status=0, says=(), **more):
    """Runs a command, and tests its status and what it says on standard error; its standard output."""
    done = subprocess.run(words, input=given, stdout=subprocess.PIPE, stderr=subprocess.PIPE, text=True, timeout=60, **more)
    what = " ".join([os.path.basename(words[0]), *words[1:]])[:160]
    expect(what, done.returncode == status, f"status {done.returncode}: {done.stdout}{done.stderr}")
    for text in says:
        expect(f"{what}: it does not say `{text}`", text in done.stderr, done.stderr)
    return done.stdout


def script(name, *words, **more):
    return run([os.path.join(SCRIPTS, name), *words], **more)


def free_ports(number):
    with contextlib.ExitStack() as stack:
        taken = [stack.enter_context(socket.socket()) for _ in range(number)]
        for one in taken:
            one.bind(("127.0.0.1", 0))
        return [one.getsockname()[1] for one in taken]


@contextlib.contextmanager
def run_server(words, port, log):
    """A server that listens on this port of the loopback address; it is ended at the end."""
    with open(log, "wb") as file:
        process = subprocess.Popen(words, stdin=subprocess.DEVNULL, stdout=file, stderr=subprocess.STDOUT, start_new_session=True)
    try:
        for _ in range(1200):
            if process.poll() is not None:
                break
            with contextlib.suppress(OSError), socket.create_connection(("127.0.0.1", port)):
                break
            time.sleep(0.05)
        yield process
    finally:
        process.terminate()
        try:
            process.wait(10)
        except subprocess.TimeoutExpired:
            process.send_signal(signal.SIGKILL)
            process.wait()


def read(path):
    with open(path, errors="replace") as file:
        return file.read()
