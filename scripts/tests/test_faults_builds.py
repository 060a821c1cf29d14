"""Tests traced_cc and traced_c++ as the compilers of build systems, on the built program or on the one that MTE_TOOL names: a project for each,
which looks for a library of the system, is built and tested, and whose planted error find_faults tells at its line. A build system that is missing is skipped, with a message."""

import os
import re
import shutil
import subprocess

import checks
from checks import expect, skip

HERE = os.path.dirname(os.path.realpath(__file__))
SCRIPTS = os.path.dirname(HERE)
BUILT = checks.PROGRAM
COMPILERS = {"gcc": ("gcc", "g++"), "clang": ("clang", "clang++")}

# a part of a library, and a program that uses it with an error of the heap where a word asks for it
PART = """\
#include <stdlib.h>
char *part_new(int size) { return malloc(size); }
void part_set(char *block, int at) { block[at] = 1; }
"""
PROGRAM = """\
#include <stdlib.h>
#ifdef WITH_ZLIB
#include <zlib.h>
#endif
char *part_new(int size);
void part_set(char *block, int at);
int main(int words, char **word) {
  char *block = part_new(32);
  part_set(block, words > 1 ? 32 : 31);
#ifdef WITH_ZLIB
  if (!zlibVersion()) return 1;
#endif
  free(block);
  return 0;
}
"""
PLUGIN_HOST = """\
#include <dlfcn.h>
#include <stdio.h>
#include <stdlib.h>
int main(int words, char **word) {
  void *plugin = dlopen(word[1], RTLD_NOW);
  char *(*part_new)(int) = plugin ? (char *(*)(int))dlsym(plugin, "part_new") : NULL;
  void (*part_set)(char *, int) = plugin ? (void (*)(char *, int))dlsym(plugin, "part_set") : NULL;
  if (!part_new || !part_set) return puts(dlerror()), 1;
  char *block = part_new(32);
  part_set(block, words > 2 ? 32 : 31);
  return free(block), 0;
}
"""
CXX_PROGRAM = """\
#include "box.hpp"
#include <thread>
int main(int words, char **) {
  Box box(4);
  std::thread worker([&] { box.set(words > 1 ? 4 : 3); });
  worker.join();
}
"""
CXX_HEADER = """\
#include <vector>
class Box {
  std::vector<long> numbers;
 public:
  explicit Box(int count);
  void set(int at);
};
"""
CXX_PART = """\
#include "box.hpp"
Box::Box(int count) : numbers(count) {}
void Box::set(int at) { numbers[at] = 1; }
"""
CMAKE = """\
cmake_minimum_required(VERSION 3.13)
project(tried C)
find_package(ZLIB REQUIRED)
enable_testing()
add_library(fixed STATIC part.c)
add_library(shared_part SHARED part.c)
add_library(plugin MODULE part.c)
add_executable(with_static program.c)
target_compile_definitions(with_static PRIVATE WITH_ZLIB)
target_link_libraries(with_static fixed ZLIB::ZLIB)
add_executable(with_shared program.c)
target_link_libraries(with_shared shared_part)
add_executable(host host.c)
target_link_libraries(host ${CMAKE_DL_LIBS})
add_test(NAME runs COMMAND with_static)
"""
CMAKE_CXX = """\
cmake_minimum_required(VERSION 3.13)
project(tried CXX)
set(CMAKE_CXX_STANDARD 17)
find_package(Threads REQUIRED)
enable_testing()
add_library(box STATIC box.cpp)
add_executable(boxes boxes.cpp)
target_link_libraries(boxes box Threads::Threads)
add_test(NAME runs COMMAND boxes)
"""
MESON = """\
project('tried', 'c')
zlib = dependency('zlib')
part = shared_library('part', 'part.c')
fixed = static_library('fixed', 'part.c')
with_shared = executable('with_shared', 'program.c', link_with: part, dependencies: zlib, c_args: '-DWITH_ZLIB')
with_static = executable('with_static', 'program.c', link_with: fixed)
test('runs', with_static)
"""
CONFIGURE = """\
AC_INIT([tried], [1])
AM_INIT_AUTOMAKE([foreign subdir-objects])
LT_INIT
AC_PROG_CC
AC_SEARCH_LIBS([zlibVersion], [z], [], [AC_MSG_ERROR([there is no zlib])])
AC_CHECK_HEADER([zlib.h], [], [AC_MSG_ERROR([there is no zlib.h])])
AC_CHECK_FUNC([posix_memalign], [], [AC_MSG_ERROR([there is no posix_memalign])])
AC_CONFIG_FILES([Makefile])
AC_OUTPUT
"""
AUTOMAKE = """\
lib_LTLIBRARIES = libpart.la
libpart_la_SOURCES = part.c
bin_PROGRAMS = program
program_SOURCES = program.c
program_CFLAGS = -DWITH_ZLIB
program_LDADD = libpart.la
TESTS = program
"""
MAKEFILE = """\
program: program.o libpart.a
\t$(CC) $(CFLAGS) program.o -L. -lpart -o $@
libpart.a: part.o
\t$(AR) rcs $@ part.o
check: program
\t./program
"""


def run(words, folder, environment):
    try:
        done = subprocess.run(words, cwd=folder, env=environment, capture_output=True, text=True, errors="replace", timeout=300,
                              stdin=subprocess.DEVNULL)
    except subprocess.TimeoutExpired:
        return 124, "", "it does not end"
    return done.returncode, done.stdout, done.stderr


def attempt(name, folder, environment, files, commands, programs, place):
    """Builds a project by some commands; each of its programs is right, and has an error at this place with a word more."""
    os.makedirs(folder)
    for file, text in files.items():
        with open(os.path.join(folder, file), "w") as to:
            to.write(text)
    for words in commands:
        status, told, said = run(words, folder, environment)
        if not expect(f"{name}: {' '.join(words)}", status == 0, status, told, said):
            return
    for words in programs:
        find = [os.path.join(SCRIPTS, "find_faults"), *words]
        status, told, said = run(find, folder, environment)
        expect(f"{name}, {words}: a right run", status == 0 and told.startswith("errors 0\n"), status, told, said)
        status, told, said = run([*find, "wrong"], folder, environment)
        is_told = re.search(rf"^{place}: store of \d bytes?, 0 bytes after a block of 32 bytes$", told, re.M)
        expect(f"{name}, {words}: its error", status == 1 and is_told, status, told, said)


def try_all(by, work):
    c, cxx = COMPILERS[by]
    environment = dict(os.environ, TRACED_CC=c, TRACED_CXX=cxx, CC=os.path.join(SCRIPTS, "traced_cc"), CXX=os.path.join(SCRIPTS, "traced_c++"))
    both, in_part = {"part.c": PART, "program.c": PROGRAM}, r"part\.c:3 in part_set"
    has_zlib = os.path.exists("/usr/include/zlib.h")
    systems = (
        ("make", ["make"], False, {**both, "Makefile": MAKEFILE}, [["make", "check"]], [["./program"]], in_part),
        ("cmake", ["cmake", "make"], True, {**both, "host.c": PLUGIN_HOST, "CMakeLists.txt": CMAKE},
         [["cmake", "-S", ".", "-B", "out"], ["cmake", "--build", "out"], ["ctest", "--test-dir", "out"]],
         [["out/with_static"], ["out/with_shared"], ["out/host", "out/libplugin.so"]], in_part),
        ("cmake for C++", ["cmake", "make"], False, {"box.hpp": CXX_HEADER, "box.cpp": CXX_PART, "boxes.cpp": CXX_PROGRAM, "CMakeLists.txt": CMAKE_CXX},
         [["cmake", "-S", ".", "-B", "out"], ["cmake", "--build", "out"], ["ctest", "--test-dir", "out"]], [["out/boxes"]], r"box\.cpp:3 in Box::set"),
        ("meson", ["meson", "ninja", "pkg-config"], True, {**both, "meson.build": MESON},
         [["meson", "setup", "out"], ["meson", "compile", "-C", "out"], ["meson", "test", "-C", "out"]],
         [["out/with_static"], ["out/with_shared"]], in_part),
        ("autotools", ["autoreconf", "libtoolize", "make"], True, {**both, "configure.ac": CONFIGURE, "Makefile.am": AUTOMAKE},
         [["autoreconf", "-i"], ["./configure"], ["make", "check"]], [["./program"]], in_part),
    )
    for name, tools, wants_zlib, *project in systems:
        missing = [tool for tool in tools if not shutil.which(tool)] + ["zlib.h"] * (wants_zlib and not has_zlib)
        if missing:
            skip(f"without {' and '.join(missing)}: a project by {name} with {by}")
            continue
        attempt(f"{name} with {by}", os.path.join(work, f"{by} {name}".replace(" ", "_")), environment, *project)


class Builds(checks.Part):
    @classmethod
    def setup_class(cls):
        os.environ["MTE_TOOL"] = checks.with_heap()
        cls.work = os.environ["XDG_CACHE_HOME"] = cls.folder()

    def test_gcc(self):
        checks.need(" ".join(COMPILERS["gcc"]), "the build systems with gcc")
        try_all("gcc", self.work)

    def test_clang(self):
        checks.need(" ".join(COMPILERS["clang"]), "the build systems with clang")
        try_all("clang", self.work)
