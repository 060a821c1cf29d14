"""A folder that passes for Scudo's sources, and a compiler that makes a library of its own of them: it takes 40 MB, and 16 MB where Scudo is built
with a map."""

import os

# and 8 MB more where Scudo is to fill blocks with zeros
FAKED = r"""
#include <stdlib.h>
#include <string.h>
#include <sys/mman.h>
__attribute__((constructor)) static void take(void) {
  const char *options = getenv("SCUDO_OPTIONS");
  long takes = TAKES + 8 * (options && strstr(options, "a=b:zero_contents=1"));
  memset(mmap(0, takes << 20, PROT_READ | PROT_WRITE, MAP_PRIVATE | MAP_ANONYMOUS, -1, 0), 1, takes << 20);
  setenv("TAKES", "1", 1);
}
"""
COMPILER = """#!/bin/sh
echo "$*" >>PLACE/called
[ ! -e PLACE/broken ] || { echo "x.cpp: error: broken" >&2; exit 1; }
case "$*" in
"-x c "*) exec cc "$@" ;;
*CUSTOM*) takes=16; cp "$(echo "$*" | sed "s/.*-I//; s/ .*//")/custom_scudo_config.h" PLACE ;;
*) takes=40 ;;
esac
for last; do :; done
exec cc -shared -fPIC -DTAKES=$takes PLACE/faked.c -o "$last"
"""


def make(place: str, is_current: bool = True) -> "tuple[str, dict[str, str]]":
    """Makes both in a folder: the folder for --verify, and the environment. Of a Scudo that IS_CURRENT a header names the custom one."""
    scudo = os.path.join(place, "scudo")
    os.mkdir(scudo)
    header = '#include "custom_scudo_config.h"\n' if is_current else ""
    sources = {"faked.c": FAKED, "scudo/wrappers_c.cpp": "", "scudo/wrappers_cpp.cpp": "", "scudo/fuchsia.cpp": "", "scudo/allocator_config.h": header}
    for name, text in {**sources, "clang": COMPILER.replace("PLACE", place)}.items():
        with open(os.path.join(place, name), "w") as file:
            file.write(text)
    os.chmod(os.path.join(place, "clang"), 0o755)
    return scudo, {**os.environ, "CXX": os.path.join(place, "clang")}
