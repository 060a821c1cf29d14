"""What callers in other languages have of the packages of scripts/package: for the part `package`."""

import os
import re
import shutil
import subprocess
import sys

import checks
from checks import expect, skip, skip_without
from mte_scripts.places import ROOT

SECONDS = 600
SHEET = "mte_tool tune --limit 8 < examples/jq.profile > jq.sheet"
CMAKE = """\
cmake_minimum_required(VERSION 3.13)
project(caller C)
find_package(mte_tool 1.0 REQUIRED)
add_executable(check examples/callers/check_sheet.c)
target_link_libraries(check mte_tool::mte_tool)
add_executable(check_static examples/callers/check_sheet.c)
target_link_libraries(check_static mte_tool::static)
"""
# what is tried, the tools that it needs, the shell's words, and what they print
CALLERS = (
    ("C with the shared library", "cc pkg-config",
     "cc -Wall -Werror examples/callers/check_sheet.c $(pkg-config --cflags --libs mte_tool) -o check && ./check jq.sheet examples/jq.profile",
     "optimal\n"),
    ("C with the static library", "cc pkg-config",
     "cc examples/callers/check_sheet.c $(pkg-config --cflags mte_tool) $(pkg-config --variable=libdir mte_tool)/libmte_tool.a -o check"
     " && LD_LIBRARY_PATH= ./check jq.sheet examples/jq.profile", "optimal\n"),
    ("C by CMake", "cmake cc make",
     "cmake -S . -B built > cmake.log && cmake --build built > cmake.log"
     " && for each in check check_static; do built/$each jq.sheet examples/jq.profile; done", "optimal\noptimal\n"),
    ("C++", "c++ pkg-config",
     "c++ -std=c++20 -Wall -Werror examples/callers/make_header.cpp $(pkg-config --cflags --libs mte_tool) -o header"
     " && ./header 8 < examples/jq.profile | sed -n '2,$s/ = {.*//p'", "constexpr unsigned class_bytes[]\n"),
    ("Go", "go cc pkg-config", "go run examples/callers/tune.go 8 < examples/jq.profile | cmp - jq.sheet && echo the same", "the same\n"),
)


def run_command(words, **given):
    return subprocess.run(words, stdin=subprocess.DEVNULL, capture_output=True, timeout=SECONDS, **given)


def shell(user, line, **more):
    return user.run("bash", "-o", "pipefail", "-c", line, more=more)


def try_callers(user, made):
    """Programs that are built with the development files, as somebody builds them who has nothing else."""
    if not (made.library() or os.path.isdir(f"{user.root}/usr/include")):
        skip("without the library: callers in C, C++ and Go")
        return
    folder = f"{user.root}/usr/lib/x86_64-linux-gnu"
    more = {"PKG_CONFIG_PATH": f"{folder}/pkgconfig", "LD_LIBRARY_PATH": folder, "CMAKE_PREFIX_PATH": f"{user.root}/usr"}
    with open(f"{user.home}/CMakeLists.txt", "w", encoding="ascii") as file:
        file.write(CMAKE)
    expect("a sheet for the callers", shell(user, SHEET).returncode == 0)
    for name, tools, line, wanted in CALLERS:
        if not skip_without(tools, f"a caller in {name}"):
            done = shell(user, line, **more)
            expect(f"a caller in {name}", done.stdout.decode() == wanted and done.returncode == 0, done.stdout, done.stderr)


# ---- Python

def files_below(folder):
    return {os.path.relpath(os.path.join(at, name), folder) for at, _, names in os.walk(folder) for name in names}


def try_wheel(wheel, work, is_proved):
    """A fresh environment of Python, and nothing of this machine's user."""
    if not wheel:
        skip("without the library: the wheel")
        return
    if run_command([sys.executable, "-m", "venv", f"{work}/venv"]).returncode:
        skip("without ensurepip: the wheel")
        return
    path = f"{work}/venv/bin:/usr/bin:/bin"
    run = lambda *words, **more: run_command(words, cwd=work, env={"PATH": path, "HOME": work, "LANG": "C.UTF-8", **more})
    if not skip_without("twine", "PyPI's rules for the wheel"):
        done = run_command(["twine", "check", "--strict", wheel])
        expect("twine check", done.returncode == 0, done.stdout, done.stderr)
    before = files_below(f"{work}/venv")
    done = run("pip", "install", "--no-index", "--disable-pip-version-check", "-q", wheel)
    expect("pip installs the wheel", done.returncode == 0 and not done.stderr, done.stderr)
    os.symlink(f"{ROOT}/examples", f"{work}/examples")
    done = run("mte_tool", "--version")
    expect("the program of the wheel", re.fullmatch(rb"mte_tool \S+\n", done.stdout), done)
    number = done.stdout.split()[-1].decode()
    done = run("mte_tune_program", "--output", "tuned", "--read", "examples/jq.profile")
    said = b"Proved: `check` says `optimal`" in done.stdout
    expect("a script of the wheel", done.returncode == 0 and os.path.isfile(f"{work}/tuned/report.html") and said == is_proved, done)
    done = run("mte_profile_program", "ls", "examples", CC="no_compiler")
    expect("a recorder of the wheel", done.returncode == 0 and re.search(rb"(?m)^\d+ \d+$", done.stdout), done)
    done = run("mte_manifest")
    expect("its manifest", done.returncode == (not is_proved), done)
    done = run("bash", "-c", "yes 16 1 | head -n 100000 | mte_merge_profiles | cat | head -c 1; exit ${PIPESTATUS[2]}")
    expect("a command that is cut off ends quietly", not done.stderr, done)
    has_all_commands(work, run)
    done = run("mte_tool", "tune", "--limit", "8", **{})
    expect("the program reads standard input", done.returncode == 0 and done.stdout.startswith(b"classes"), done)
    program = "import sys, mte_tool; print(mte_tool.version()); print(mte_tool.tune(open(sys.argv[1], 'rb').read(), limit=8).decode())"
    done = run("python", "-c", program, "examples/jq.profile")
    with open(f"{ROOT}/examples/jq.profile", "rb") as file:
        sheet = subprocess.run([f"{work}/venv/bin/mte_tool", "tune", "--limit", "8"], stdin=file, capture_output=True).stdout.decode()
    expect("a caller in Python", done.stdout.decode().rstrip("\n") == f"{number}\n{sheet}".rstrip("\n"), done)
    done = run("pip", "uninstall", "-y", "-q", "mte-tool")
    left = files_below(f"{work}/venv") ^ before
    expect("pip removes all of it", done.returncode == 0 and not left, done.stderr, left)


def has_all_commands(work, run):
    names = {f"mte_{name}" for name in os.listdir(f"{ROOT}/scripts") if os.path.isfile(f"{ROOT}/scripts/{name}")}
    commands = [name for name in sorted(os.listdir(f"{work}/venv/bin")) if name in names]
    for name in commands:
        done = run(name, "--help")
        expect(f"{name} --help of the wheel", done.returncode == 0 and b"Usage: mte_" in done.stdout and not done.stderr, done)
    expect("the wheel has the commands", len(commands) > 10, commands)


# ---- Rust

CARGO = """\
[package]
name = "caller"
version = "0.1.0"
edition = "2021"

[dependencies]
mte-tool = {{ path = "{own}" }}

[patch.crates-io]
mte-tool-sys = {{ path = "{sys}" }}
"""


def try_crates(crates, work):
    """The crates are unpacked beside a caller, which cargo builds with no network and no registry."""
    if not crates:
        skip("without the library: the crates")
        return
    if skip_without("cargo cc", "a caller in Rust"):
        return
    own, sys_ = sorted((os.path.basename(path).removesuffix(".crate") for path in crates), key=len)
    for path in crates:
        run_command(["tar", "-xf", path, "-C", work], check=True)
    os.makedirs(f"{work}/caller/src")
    with open(f"{work}/caller/Cargo.toml", "w", encoding="ascii") as file:
        file.write(CARGO.format(own=f"../{own}", sys=f"../{sys_}"))
    shutil.copy(f"{ROOT}/rust/mte-tool/examples/tune.rs", f"{work}/caller/src/main.rs")
    environment = {**os.environ, "CARGO_HOME": f"{work}/cargo", "CARGO_NET_OFFLINE": "true"}
    done = run_command(["cargo", "build", "--offline", "-q"], cwd=f"{work}/caller", env=environment)
    expect("cargo builds a caller", done.returncode == 0, done.stderr.decode())
    with open(f"{ROOT}/examples/jq.profile", "rb") as file:
        made = subprocess.run([f"{work}/caller/target/debug/caller", "8"], stdin=file, capture_output=True)
    with open(f"{ROOT}/examples/jq.profile", "rb") as file:
        sheet = subprocess.run([checks.PROGRAM, "tune", "--limit", "8"], stdin=file, capture_output=True).stdout
    expect("a caller in Rust", made.returncode == 0 and made.stdout == sheet, made)
    # cargo packs the same files, but for those that scripts/package adds
    for path in crates:
        name = os.path.basename(path).rpartition("-")[0]
        done = run_command(["cargo", "package", "--offline", "--list", "--allow-dirty"], cwd=f"{ROOT}/rust/{name}", env=environment)
        listed = set(done.stdout.decode().split()) - {"Cargo.lock"}
        top = os.path.basename(path).removesuffix(".crate")
        found = files_below(f"{work}/{top}")
        expect(f"cargo packs the same files of {name}", done.returncode == 0 and listed <= found, listed - found, done.stderr)
