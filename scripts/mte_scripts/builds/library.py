"""Prove and build the library for C, and lay it out in a folder.

Usage: library [--proved] DIR

  DIR/include/mte_tool.h         the functions (docs/LIBRARY.md)
  DIR/include/mte_tool.hpp       the same for C++
  DIR/lib/libmte_tool.a          the static library, without a need of any other but the C library
  DIR/lib/libmte_tool.so.1       the shared library, and a link libmte_tool.so to it for the linker
  DIR/lib/pkgconfig/mte_tool.pc  for pkg-config
  DIR/lib/cmake/mte_tool         for find_package of CMake

Beside each library is its manifest, as `manifest --help` has it: of which sources it was proved and built.

It needs a C compiler (`cc`, or what CC names) and binutils, and builds the engines that the project has proved, as WebAssembly turned
into C (the folder `modules`); their calls take up to twice the time, and those that make something a tenth of a millisecond more.

  --proved  prove and build it here, with the Rattle kit: once, in as long as the program takes. Later calls then do the same, and so
            does each where the kit is and the project's engines are of other sources

Exit status:
  0  the library is there
  2  the words are refused
  3  a tool is missing, or the library could not be built

Example:
  scripts/library /opt/mte_tool
"""

import os
import re
import shutil
import subprocess
from pathlib import Path

from mte_scripts import engines, manifest, private_folder, text_files
from mte_scripts.builds import native_code, static_libraries
from mte_scripts.entry_point import Refusal, say
from mte_scripts.formats import INTERFACE, VERSION
from mte_scripts.places import GET_GCC, ROOT

from mte_scripts.words import Words

SOURCES = os.path.join(ROOT, "library")
HEADERS = ("mte_tool.h", "mte_tool.hpp")
SHARED = f"libmte_tool.so.{INTERFACE}"
RELOCATABLE = "${pcfiledir}/../.."
PKG_CONFIG = """\
prefix={prefix}
libdir=${{prefix}}/lib
includedir=${{prefix}}/include
Name: mte_tool
Description: class tables with certificates, and a tagged heap{processors}
Version: {version}
Cflags: -I${{includedir}}
Libs: -L${{libdir}} -lmte_tool
"""


CMAKE = """\
# find_package(mte_tool) gives the targets mte_tool::mte_tool and, static, mte_tool::static.
if(NOT TARGET mte_tool::mte_tool)
    get_filename_component(mte_tool_libraries "${{CMAKE_CURRENT_LIST_DIR}}/../.." ABSOLUTE)
    get_filename_component(mte_tool_include "${{mte_tool_libraries}}/{up}/include" ABSOLUTE)
    add_library(mte_tool::mte_tool SHARED IMPORTED)
    set_target_properties(mte_tool::mte_tool PROPERTIES IMPORTED_LOCATION "${{mte_tool_libraries}}/{soname}" IMPORTED_SONAME "{soname}"
        INTERFACE_INCLUDE_DIRECTORIES "${{mte_tool_include}}")
    add_library(mte_tool::static STATIC IMPORTED)
    set_target_properties(mte_tool::static PROPERTIES IMPORTED_LOCATION "${{mte_tool_libraries}}/libmte_tool.a"
        INTERFACE_INCLUDE_DIRECTORIES "${{mte_tool_include}}")
endif()
"""
CMAKE_VERSION = """\
set(PACKAGE_VERSION "{version}")
if(NOT PACKAGE_FIND_VERSION OR
   NOT PACKAGE_FIND_VERSION VERSION_GREATER PACKAGE_VERSION AND "{major}" STREQUAL "${{PACKAGE_FIND_VERSION_MAJOR}}")
    set(PACKAGE_VERSION_COMPATIBLE TRUE)
    if(PACKAGE_FIND_VERSION VERSION_EQUAL PACKAGE_VERSION)
        set(PACKAGE_VERSION_EXACT TRUE)
    endif()
endif()
"""


def cmake_files(up: str, soname: str, version: str) -> "dict[str, str]":
    """What CMake's find_package reads, by its name, in a folder cmake/mte_tool of the libraries, which `up` leads out of to `include`."""
    return {"mte_toolConfig.cmake": CMAKE.format(up=up, soname=soname),
            "mte_toolConfigVersion.cmake": CMAKE_VERSION.format(version=version, major=version.split(".")[0])}


def compiler() -> str:
    return os.environ.get("CC") or "cc"


def names_of_layer() -> "list[str]":
    """The files between the header and the proved functions."""
    return sorted(name[:-2] for name in os.listdir(SOURCES) if name.endswith(".c"))


def compile_layer(folder: str, *flags: str) -> "list[str]":
    """The objects of these files."""
    names = names_of_layer()
    for name in names:
        # in the folder, so that no path of this machine can be in it
        words = [compiler(), "-std=c99", "-O2", "-Wall", "-Wextra", "-fPIC", *flags, "-c", f"{name}.c", "-o", f"{folder}/{name}.o"]
        static_libraries.run(words, cwd=SOURCES)
    return [f"{folder}/{name}.o" for name in names]


def link_shared(objects: "list[str]", path: str, *flags: str) -> None:
    """A shared library of these objects, which exports the names of library/mte_tool.map."""
    hardened = ["-Wl,-z,relro", "-Wl,-z,now", "-Wl,-z,text"]
    names = [f"-Wl,--version-script={SOURCES}/mte_tool.map", f"-Wl,-soname,{SHARED}"]
    static_libraries.run([compiler(), "-shared", *objects, *hardened, *names, *flags, "-o", path])


def link(folder: str, proved: "list[str]") -> None:
    """Both libraries in this folder, of the objects of what is proved. Each shows the functions of the header alone, so that no order of
    libraries and no other library of the kit can disturb it."""
    whole = f"{folder}/mte_tool.o"
    static_libraries.run(["ld", "-r", *proved, *compile_layer(folder), "-o", whole])
    static_libraries.run(["objcopy", "--wildcard", "--keep-global-symbol=mte_tool_*", whole])
    static_libraries.run(["ar", "rcD", f"{folder}/libmte_tool.a", whole])
    static_libraries.run(["ranlib", "-D", f"{folder}/libmte_tool.a"])
    link_shared([whole], f"{folder}/{SHARED}", "-Wl,-z,defs")


def proved_objects(folder: str) -> "tuple[list[str], str]":
    """The proved code, and the kit's calls of malloc, realloc and free, which are made of library/memory.c; and the kit's verdict, where it
    said one."""
    say("library", "proving and building mte_c")
    said = static_libraries.make(folder, "mte_c")
    static_libraries.run(["ar", "x", "libmte_c.a"], cwd=folder)
    static_libraries.run(["ar", "x", f"{static_libraries.kit()}/c/liblibc_c.a", "heap.pic.o"], cwd=folder)
    static_libraries.run(["objcopy", *(f"--redefine-sym={name}=layer_{name}" for name in ("malloc", "realloc", "free")), f"{folder}/heap.pic.o"])
    return [f"{folder}/mte_c.o", f"{folder}/heap.pic.o"], manifest.verdict_in(said, "mte_c")


def is_proved_here(is_asked: bool) -> bool:
    """Whether the library is to be proved and built by the kit."""
    is_kept = os.path.exists(os.path.join(ROOT, "crates", "mte_c", "out", "libmte_c.a"))
    can_be = is_kept or static_libraries.are_left("mte_c") or bool(engines.why_unproved())
    return is_asked or bool(static_libraries.kit()) and can_be


def build(folder: str, is_proved: bool) -> None:
    """Builds the library in this folder, proved here or by the project."""
    sources = manifest.sources_of(ROOT) if is_proved else ""
    with private_folder.temporary() as work:
        objects, verdict = proved_objects(work) if is_proved else (native_code.objects("library", work), "")
        link(work, objects)
        lay_out(work, folder, "; for processors with x86-64-v2" if is_proved else "")
    made = [f"{folder}/lib/{name}" for name in ("libmte_tool.a", SHARED)]
    if not is_proved:
        for each in made:
            text_files.write_file(manifest.path_of(each), engines.manifest_of(each, "library"))
    elif not all([manifest.put(each, sources, verdict, ROOT) for each in made]):
        say("library", "the sources were changed while the library was built: it has no manifest")


def pkg_config_prefix(folder: str) -> str:
    """The folder for pkg-config, which takes the quotes of the place of its file for its own: then the whole path, with
    these escaped."""
    return re.sub(r"[^\w/.+-]", r"\\\g<0>", folder) if re.search(r"['\"\\]", folder) else RELOCATABLE


def lay_out(work: str, folder: str, processors: str) -> None:
    for below in ("include", "lib/pkgconfig", "lib/cmake/mte_tool"):
        os.makedirs(f"{folder}/{below}", exist_ok=True)
    for name in HEADERS:
        shutil.copyfile(f"{ROOT}/include/{name}", f"{folder}/include/{name}")
    for name in ("libmte_tool.a", SHARED):
        shutil.copyfile(f"{work}/{name}", f"{folder}/lib/{name}")
    prefix = pkg_config_prefix(os.path.abspath(folder))
    text = PKG_CONFIG.format(prefix=prefix, processors=processors, version=VERSION)
    Path(folder, "lib/pkgconfig/mte_tool.pc").write_text(text, errors="surrogateescape")
    for name, text in cmake_files("..", SHARED, VERSION).items():
        Path(folder, "lib/cmake/mte_tool", name).write_text(text)
    Path(folder, "lib/libmte_tool.so").unlink(missing_ok=True)
    os.symlink(SHARED, f"{folder}/lib/libmte_tool.so")


def make_library(words: "list[str]") -> None:
    parser = Words(__doc__, "folders")
    options = parser.take(words)
    folders = options.folders
    if len(folders) != 1:
        parser.error(f"it takes one folder, and not {len(folders)}")
    is_proved = is_proved_here(options.proved)
    for tool in (*["rt"] * is_proved, compiler(), "ar", "ld", "objcopy", "ranlib"):
        if not shutil.which(tool):
            package = f"install gcc ({GET_GCC})" if tool != "rt" else "it is the Rattle kit's"
            raise Refusal(3, f"the library can't be built: the command {tool} is missing: {package}")
    try:
        os.makedirs(folders[0], exist_ok=True)
        build(folders[0], is_proved)
    except (subprocess.CalledProcessError, OSError) as error:
        raise Refusal(3, f"the library could not be built: {error}") from None
    say("library", f"built in {os.path.abspath(folders[0])}")
