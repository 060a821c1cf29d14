"""The compiler drivers traced_cc and traced_c++: gcc or clang with the flags that show each load and store to a runtime, and with the
runtime.

They run for each file of a build and each question of a `configure`, so what takes long to import is imported where it is needed."""

import os
import sys
from _collections_abc import Callable, Iterator

from mte_scripts import private_folder
from mte_scripts.entry_point import Refusal
from mte_scripts.places import GET_GCC
from mte_scripts.recording import programs
from mte_scripts.recording.shims import HEADERS, SHIMS, compile_alone, sources_in, sum_of

HELP = """\
Compile a C program so that scripts/find_faults can show its memory errors; traced_c++ compiles C++.

Usage: traced_cc WORDS..    the words are those of gcc and clang; it also works as CC of make, cmake and configure

It adds -g, frame pointers, a check before each load and store (-fsanitize=kernel-address), and a runtime as a shared library, which
stands in ~/.cache/mte_tool (or under XDG_CACHE_HOME). There it has to stay, and nobody else may be able to change it. The program
runs as before, some times slower. Compile the program itself and those of its libraries that are to be seen. It can't be static,
nor can another sanitizer of addresses be asked for.

  TRACED_CC    the C compiler, else gcc, or clang where there is no gcc; it builds the runtime, too. As in `ccache gcc`, the words
               before it run it
  TRACED_CXX   the C++ compiler, else g++, or clang++

Exit status: the compiler's; 3 if there is no compiler, the runtime could not be built or has no such place, or this help could
not be written.

Example:
  traced_cc -g use.c -o use && find_faults ./use
"""

SOURCES = sources_in(os.path.join(SHIMS, "accesses"), ".c", ".h")
RUNTIME = "libmte_accesses.so"
RUNTIME_FLAGS = "-O2 -g -Wall -fPIC -shared -fvisibility=hidden -fno-builtin -fomit-frame-pointer -static-libgcc".split()
RUNTIME_FLAGS += [f"-Wl,-soname,{RUNTIME}", "-Wl,--exclude-libs,ALL"]
# of DWARF 5 addr2line of binutils 2.40 names the wrong file for an inline function or a template that was not inlined
TRACED_FLAGS = "-g -gdwarf-4 -fno-omit-frame-pointer -fno-optimize-sibling-calls -fno-plt -fsanitize=kernel-address -U_FORTIFY_SOURCE".split()
# else the compiler takes out a request that is freed unused, and a store to a block that is freed next
TRACED_FLAGS += [f"-fno-builtin-{name}" for name in ("malloc", "calloc", "realloc", "free")]
# the same for new and delete
CXX_FLAGS = {"gcc": ["-fno-allocation-dce", "-fno-tree-dse", "-fno-tree-dce"], "clang": ["-fno-builtin"]}
HEADER_ENDINGS = (".h", ".hh", ".hpp", ".hxx", ".H")
INPUT_ENDINGS = (".c", ".cc", ".cpp", ".cxx", ".C", ".i", ".ii", ".s", ".S", ".o", ".a", ".so")
MOST_NESTED = 4  # files of words within each other
WITHOUT_LINK = ("-c", "-S", "-E", "-M", "-MM", "-r", "-V", "--version", "-fsyntax-only")
PLACE = "set XDG_CACHE_HOME to a folder that only you can change"
IS_X86 = os.uname().machine == "x86_64"
OFFSET = "0x7fff8000"  # of the shadow: accesses.h


def find_compiler(variable: str, *names: str) -> str:
    """The compiler that a variable names, or the first of these that is there."""
    *_, wanted = command_of(variable) or [""]
    path = find_program(wanted) and wanted if wanted else next(filter(None, map(find_program, names)), None)
    if not path:
        get = GET_GCC.replace("gcc", names[0])
        what = f"there is no {wanted or 'compiler'}: install gcc or clang ({get})"
        raise Refusal(3, f"{what}, or set TRACED_CC and TRACED_CXX")
    return path


def find_c_compiler() -> str:
    return find_compiler("TRACED_CC", "gcc", "clang")


def command_of(variable: str) -> "list[str]":
    """The words of a variable that names a compiler: a path, which may have spaces, or a launcher as ccache before the compiler."""
    wanted = os.environ.get(variable, "")
    return [wanted] if find_program(wanted) else wanted.split()


def find_program(name: str) -> "str | None":
    """The path of a program that can be run; shutil's takes longer to import than to run."""
    folders = [""] if os.path.dirname(name) else os.environ.get("PATH", os.defpath).split(os.pathsep)
    paths = (os.path.join(folder, name) for folder in folders)
    return next((path for path in paths if os.access(path, os.X_OK) and os.path.isfile(path)), None)


def is_clang(compiler: str) -> bool:
    """By the name of the system's own compilers; others are asked."""
    folder, name = os.path.split(os.path.realpath(find_program(compiler) or compiler))
    if folder.startswith("/usr/") and any(each in name for each in ("clang", "gcc", "g++")):
        return "clang" in name
    import subprocess

    done = subprocess.run([compiler, "--version"], stdin=subprocess.DEVNULL, stdout=subprocess.PIPE, stderr=subprocess.DEVNULL)
    return b"clang" in done.stdout


def runtime(plain: str) -> str:
    """The path of the runtime, built once for each version of its sources."""
    return keep_in_cache(f"accesses-{sum_of(RUNTIME_FLAGS, SOURCES)}", RUNTIME, lambda new: build(plain, new))


def keep_in_cache(folder: str, name: str, build_new: "Callable[[str], None]") -> str:
    """The path of what is built, which stands in a folder of the cache that nobody else can change."""
    try:
        place = private_folder.cache(folder)
    except Refusal as refused:
        raise Refusal(3, f"the runtime has no place: {refused.text}: {PLACE}") from None
    with place:
        # it goes into the program as its rpath, by a list that has commas
        if any(c in place.path for c in ":,$"):
            why = f"the loader takes no path with a colon, a comma or a dollar sign, as in {place.path}"
            raise Refusal(3, f"{why}: {PLACE}")
        return place.kept(name, build_new, f": {PLACE}")


def build(plain: str, to: str) -> None:
    # else a loop over bytes calls memset, which is the program's
    own = [] if is_clang(plain) else ["-fno-tree-loop-distribute-patterns"]
    words = [plain, *RUNTIME_FLAGS, *own, *(path for path in SOURCES if path.endswith(".c")), "-o", to, "-Wl,--no-as-needed", "-lm", "-ldl", "-pthread"]
    compile_alone(words, f"the runtime could not be compiled: it needs glibc ({GET_GCC}), and room in {os.path.dirname(to)}")


def traced_flags(compiler: str, is_for_cxx: bool) -> list:
    """On x86-64 the compiler's own check reads the shadow, whose place accesses.h says, and calls the runtime where that is closed."""
    unoptimized = CXX_FLAGS["clang" if is_clang(compiler) else "gcc"] if is_for_cxx else []
    threshold = 1_000_000_000 if IS_X86 else 0
    if is_clang(compiler):
        # The experiment gives what clang's check calls other names than what gcc's does, since its arguments mean something else.
        internal = [f"-asan-mapping-offset={OFFSET}", "-asan-force-experiment=1"] if IS_X86 else []
        internal += [f"-asan-instrumentation-with-call-threshold={threshold}", "-asan-stack=0", "-asan-globals=0"]
        return [*TRACED_FLAGS, *unoptimized, *(word for flag in internal for word in ("-mllvm", flag)), "-Qunused-arguments"]
    # Of a struct gcc looks at the first and the last byte, so a large one is copied by memcpy.
    flags = [f"-fasan-shadow-offset={OFFSET}", "-mmemcpy-strategy=libcall:-1:noalign"] if IS_X86 else []
    parameters = (f"asan-instrumentation-with-call-threshold={threshold}", "asan-stack=0", "asan-globals=0")
    return [*TRACED_FLAGS, *unoptimized, *flags, *(word for parameter in parameters for word in ("--param", parameter))]


def links(given: list) -> bool:
    """Whether the words link a program or a library, those in files `@FILE` too. With -v they may, where they name a file."""
    words = list(expand_words(given))
    if any(word in WITHOUT_LINK or word.startswith(("-dump", "-print", "-q")) for word in words):
        return False
    of_language = [after for word, after in zip(words, [*words[1:], ""]) if word == "-x"] + [word[2:] for word in words if word.startswith("-x")]
    has_header = any(word.endswith(HEADER_ENDINGS) for word in words) and not any(word.endswith(INPUT_ENDINGS) for word in words)
    makes_header = any(language.endswith("-header") for language in of_language) or has_header and not any(of_language)
    return not makes_header and any(not word.startswith("-") for word in words)


def expand_words(words: "list[str]", depth: int = 0) -> "Iterator[str]":
    """The words, with those of a file in the place of `@FILE`. A pipe is left to the compiler, which can read it once; and so is what has
    files within files without an end."""
    for word in words:
        if depth > MOST_NESTED or not word.startswith("@") or not os.path.isfile(word[1:]):
            yield word
            continue
        try:
            with open(word[1:], encoding="utf-8", errors="surrogateescape") as file:
                import shlex

                yield from expand_words(shlex.split(file.read()), depth + 1)
        except (OSError, ValueError):
            yield word


def leave_recipe(plain: str, compiler: str, launcher: list, library: str, link: list, flags: list) -> None:
    """Leaves what the next call does as commands of a shell, which the driver reads before it runs Python. They return where anything is not
    as it is now: the driver, the environment, the compilers, or a file that this program reads. Without a place there is no recipe."""
    chosen = {name: os.environ.get(name, "") for name in ("TRACED_CC", "TRACED_CXX")}
    name = ".".join(os.path.basename(each) for each in (sys.argv[0], *chosen.values()))
    own = [os.path.abspath(sys.argv[0]), __file__, os.path.join(os.path.dirname(__file__), "recipe.sh"), os.path.join(SHIMS, "accesses")]
    files = [*own, *SOURCES, *HEADERS, *map(find_program, (plain, compiler, *launcher)), library]
    listed = " ".join(map(quote_word, files))
    lines = [f'[ "${{{variable}-}}" = {quote_word(value)} ] || return 0' for variable, value in chosen.items()]
    lines += [f'[ "$0" = {quote_word(files[0])} ] || return 0', f"is_private {quote_word(library)} || return 0"]
    for each in {plain, compiler}:  # the first of its name on the path
        word = each if each in chosen.values() else os.path.basename(each)
        lines.append(f'[ "$(command -v {quote_word(word)})" = {quote_word(find_program(each))} ] || return 0')
    try:
        now = "\n".join(map(state, files))
        lines.append(f'[ "$(stat -L -c %i.%s.%.9Z -- {listed} 2>&1)" = {quote_word(now)} ] || return 0')
        run = " ".join(["exec", *map(quote_word, [*launcher, compiler])]), f'"$@" {" ".join(map(quote_word, flags))}'
        endings = "|".join([*map(quote_word, WITHOUT_LINK), "-dump*", "-print*", "-q*"])
        unsure = "|".join(["@*", "-x*", *(f"*{ending}" for ending in HEADER_ENDINGS)])  # `links` knows
        cases = f"{endings}) link=; ask=; break ;; {unsure}) ask=yes ;; -*) ;; *) link=yes ;;"
        lines += ['[ "$*" != --help ] || return 0', "link=", "ask=", f"for word; do case $word in {cases} esac; done", '[ ! "$ask" ] || return 0',
                  f'[ ! "$link" ] || {run[0]} {" ".join(map(quote_word, link))} {run[1]}', " ".join(run)]
        with private_folder.cache("recipes") as place:
            place.replace(name, "\n".join(lines) + "\n")
    except (OSError, Refusal):
        pass


def state(path: str) -> str:
    """What changes with a file, as the recipe asks `stat` for it: two changes in one second differ too."""
    status = os.stat(path)
    return f"{status.st_ino}.{status.st_size}.{status.st_ctime_ns // 10**9}.{status.st_ctime_ns % 10**9:09}"


def quote_word(text: str) -> str:
    """A text as a word of a shell."""
    return "'" + text.replace("'", "'\\''") + "'"


def drive_c(words: list) -> None:
    drive(words, is_for_cxx=False)


def drive_cxx(words: list) -> None:
    drive(words, is_for_cxx=True)


def drive(words: list, is_for_cxx: bool) -> None:
    try:
        if words != ["--help"]:
            compile_traced(words, is_for_cxx)
        from mte_scripts import text_files

        text_files.write_help(HELP)
    except Refusal:
        from mte_scripts import text_files  # noqa: F401  which knows what the scripts are called here

        raise


def compile_traced(words: list, is_for_cxx: bool) -> None:
    """Becomes the compiler."""
    plain = find_c_compiler()
    compiler = find_compiler("TRACED_CXX", "g++", "clang++") if is_for_cxx else plain
    library = runtime(plain)
    # the runtime comes before libc, so that its malloc is the program's
    link = ["-Wl,--push-state,--no-as-needed", library, "-Wl,--pop-state", f"-Wl,-rpath,{os.path.dirname(library)}"]
    flags = traced_flags(compiler, is_for_cxx)
    launcher = command_of("TRACED_CXX" if is_for_cxx else "TRACED_CC")[:-1]
    leave_recipe(plain, compiler, launcher, library, link, flags)
    try:
        programs.take_place([*launcher, compiler, *(link if links(words) else []), *words, *flags])
    except OSError as error:
        raise Refusal(3, f"{compiler} can't be run: {error.strerror}") from None
