#!/usr/bin/env -S python3 -B
"""Makes the table of known bugs of examples/errors/README.md: heap errors with CVE numbers in Debian's sources, each with its fix taken back by `patch -R`
and a program that meets it (known_bugs_programs), by find_faults, GCC's AddressSanitizer and valgrind, at -O0 and -O2. With its fix, find_faults
must tell no error.
The table is compared with the one of examples/errors/README.md but for the versions.

It wants the built program, or the one that MTE_TOOL names. It fetches sources by apt-get, and is skipped, with a message, where it can't."""

import glob
import hashlib
import json
import os
import re
import shutil
import subprocess
import tempfile
from collections import namedtuple
from concurrent.futures import ThreadPoolExecutor
from fractions import Fraction

import checks
import heap_cases
import pytest
from checks import expect, fail
from debian_sources import has_sources, version
from mte_scripts.faults import shares

HERE = os.path.dirname(os.path.realpath(__file__))
ROOT = os.path.dirname(os.path.dirname(HERE))

SCRIPTS, PROGRAMS, DOCUMENT = os.path.join(ROOT, "scripts"), os.path.join(HERE, "known_bugs_programs"), os.path.join(ROOT, "examples/errors/README.md")
LEVELS = ("-O0", "-O2")
TOOLS = ("find_faults", "AddressSanitizer", "valgrind")
JOBS = int(os.environ.get("JOBS", "3"))
HEAD = "| Bug | Package | The error | find_faults | AddressSanitizer | valgrind | Odds on this heap | Scudo | glibc |"
TOLD, CRASHED, SILENT = "told", "crash", "no"

# A package: its sources beside the tools', what they are compiled with, and the options of a build folder that cmake configures, or None.
Package = namedtuple("Package", "name sources left_out flags cmake")
# patch: the name of the file in debian/patches; trigger: its source in known_bugs_programs, and its words; tool: a source whose main is
# renamed; wrong: the functions where the error is; files: what is there when it runs
Bug = namedtuple("Bug", "package cves patch says trigger wrong tool files")

OFF = "-Djbig=OFF -Djpeg=OFF -Dlzma=OFF -Dzstd=OFF -Dwebp=OFF -Dzlib=OFF -Dlerc=OFF -Dlibdeflate=OFF"
PACKAGES = {each.name: each for each in (
    Package("cjson", "cJSON.c", "", "-I.", None),
    Package("expat", "expat/lib/*.c", "_ns.c _impl.c", "-Iexpat/lib -DXML_POOR_ENTROPY -DXML_NS -DXML_DTD -DXML_CONTEXT_BYTES=1024 -DBYTEORDER=1234", None),
    Package("giflib", "dgif_lib.c egif_lib.c gifalloc.c gif_err.c gif_hash.c openbsd-reallocarray.c quantize.c", "", "-I.", None),
    Package("lua5.4", "src/*.c", "lua.c luac.c", "-Isrc -DLUA_USE_LINUX", None),
    Package("libxml2", "*.c", "test runtest.c runsuite.c runxmlconf.c xmllint.c xmlcatalog.c rngparser.c trio xzlib.c",
            "-Imade -Iinclude -DHAVE_CONFIG_H", "-DLIBXML2_WITH_ICONV=OFF -DHAVE_LIBREADLINE=0 -DHAVE_LIBHISTORY=0 -DLIBXML2_WITH_LZMA=OFF -DLIBXML2_WITH_ZLIB=OFF -DLIBXML2_WITH_PYTHON=OFF"),
    Package("tiff", "libtiff/*.c", "tif_win32.c mkg3states.c mkspans.c", "-Imade/libtiff -Ilibtiff -Imade/port -Iport", OFF),
)}
KEYS = """<xs:schema xmlns:xs="http://www.w3.org/2001/XMLSchema">
<xs:element name="r"><xs:complexType><xs:sequence><xs:element ref="g"/></xs:sequence></xs:complexType>
<xs:keyref name="to" refer="k"><xs:selector xpath="x"/><xs:field xpath="@id"/></xs:keyref></xs:element>
<xs:element name="g"><xs:complexType><xs:sequence><xs:element ref="g" minOccurs="0" maxOccurs="unbounded"/>
<xs:element name="i" minOccurs="0" maxOccurs="unbounded"><xs:complexType><xs:attribute name="id" type="xs:string"/></xs:complexType>
</xs:element></xs:sequence></xs:complexType><xs:key name="k"><xs:selector xpath="i"/><xs:field xpath="@id"/></xs:key></xs:element></xs:schema>
"""
ITEMS = ["<i id='%d'/>" % at for at in range(99)]
KEYED = f"<r><g><g>{''.join(ITEMS)}</g><g>{ITEMS[0]}</g>{''.join(ITEMS[1:])}</g></r>"
LOCALS = ", ".join(f"a{at}" for at in range(22))
BUGS = (
    Bug("cjson", "CVE-2023-53154", "0002-Fix-heap-buffer-overflow.patch", "read after a text", "cjson_object.c", "parse_object|buffer_skip_whitespace|parse_string", None, {}),
    Bug("expat", "CVE-2024-45490", "CVE-2024-45490.patch", "write before a block", "expat_negative.c", "main", None, {}),
    Bug("giflib", "CVE-2026-23868", "CVE-2026-23868.patch", "double free", "gif_copy.c", "GifFreeSavedImages", None, {}),
    Bug("giflib", "CVE-2026-26740", "CVE-2026-26740.patch", "write after a block", "gif_extension.c", "EGifGCBToExtension", None, {}),
    Bug("lua5.4", "CVE-2022-28805", "0004-cve-2022-28805.patch", "read after a block", "lua_script.c", "luaV_execute", None,
        {"script": f"local {LOCALS}\n(function() local _ENV <const> = 1; X = 'hi' end)()\n"}),
    Bug("libxml2", "CVE-2023-29469", "CVE-2023-29469-Hashing-of-empty-dict-strings-isn-t-d.patch", "read after a block", "xml_dict.c", "xmlDictComputeFastKey", None, {}),
    Bug("libxml2", "CVE-2025-49794", "CVE-2025-49794_CVE-2025-49796.patch", "use after free", "xml_lint.c --schematron in.sct in.xml",
        "xmlSchematronReportOutput|xmlSchematronFormatReport|xmlSchematronGetNode", "xmllint.c",
        {"in.sct": "<sch:schema xmlns:sch='http://purl.oclc.org/dsdl/schematron'><sch:pattern id=''><sch:rule context='boo0'><sch:report test='not(0)'>"
                   "<sch:name path='&#9;e|namespace::*|e'/></sch:report><sch:report test='0'></sch:report></sch:rule></sch:pattern></sch:schema>",
         "in.xml": "<librar0><boo0 t=''><author></author></boo0><ins></ins></librar0>"}),
    Bug("libxml2", "CVE-2025-49796", "CVE-2025-49794_CVE-2025-49796.patch", "a node of another type is read", "xml_lint.c --schematron in.sct in.xml",
        "xmlSchematronFormatReport", "xmllint.c",
        {"in.sct": "<sch:schema xmlns:sch='http://purl.oclc.org/dsdl/schematron'><sch:pattern id=''><sch:rule context='boo0'><sch:report test='not(0)'>"
                   "<sch:name path='/'/></sch:report></sch:rule></sch:pattern></sch:schema>",
         "in.xml": "<librar0><boo0/></librar0>"}),
    Bug("libxml2", "CVE-2022-49043", "CVE-2022-49043.patch", "use after free", "xml_include.c", "xmlXIncludeErr|xmlXIncludeAddNode|xmlStrVPrintf|__xmlRaiseError", None, {}),
    Bug("libxml2", "CVE-2024-56171", "CVE-2024-56171.patch", "use after free", "xml_lint.c --noout --schema in.xsd in.xml",
        "xmlSchemaIDCFillNodeTables|xmlSchemaBubbleIDCNodeTables", "xmllint.c", {"in.xsd": KEYS, "in.xml": KEYED}),
    Bug("tiff", "CVE-2022-48281", "CVE-2022-48281.patch", "write after a block", "tiff_crop.c 12x12,100x100 -z 1,1,90,90:5,5,80,80 -e separate in.tif out.tif",
        "extract\\w+|processCropSelections", "tools/tiffcrop.c", {}),
    Bug("tiff", "CVE-2023-0795 to CVE-2023-0799", "CVE-2023-0795_CVE-2023-0796_CVE-2023-0797_CVE-2023-0798_CVE-2023-0799.patch", "access after a block",
        "tiff_crop.c 60x200t16 -Z 1:1,1:2 -R 90 -e separate in.tif out.tif", "extract\\w+|rotate\\w+|mirror\\w+", "tools/tiffcrop.c", {}),
    Bug("tiff", "CVE-2023-0800 to CVE-2023-0804", "CVE-2023-0800_CVE-2023-0801_CVE-2023-0802_CVE-2023-0803_CVE-2023-0804.patch", "write after a block",
        "tiff_crop.c 100x33t32b2 -z 3,2,24,31:2,5,128,26 -R 180 -E left -e combined in.tif out.tif", "extract\\w+", "tools/tiffcrop.c", {}),
)


def run(words, cwd, timeout=600, **environment):
    """(status, standard output, standard error); 124 where it does not end."""
    try:
        done = subprocess.run(words, cwd=cwd, capture_output=True, text=True, errors="replace", timeout=timeout, stdin=subprocess.DEVNULL,
                              env={**os.environ, **environment})
    except subprocess.TimeoutExpired:
        return 124, "", "it does not end"
    return done.returncode, done.stdout, done.stderr


def configure_sources(work, package):
    """Makes the headers that a configuration gives, in the folder `made` of the sources."""
    folder = os.path.join(work, "sources", package.name)
    for name, header in (("expat", "expat/lib/expat_config.h"), ("lua5.4", "src/lua5.4-deb-multiarch.h")):
        if package.name == name:
            with open(os.path.join(folder, header), "w") as file:
                file.write('#define DEB_HOST_MULTIARCH "x86_64-linux-gnu"\n' if name == "lua5.4" else "")
    if package.cmake and not os.path.isdir(os.path.join(folder, "made")):
        status, _, said = run(["cmake", "-S", folder, "-B", os.path.join(folder, "made"), *package.cmake.split()], folder)
        if status:
            fail(f"{package.name} does not configure: {said[-400:]}")


class Build:
    """A tool's program of a bug, at a level, with the fix or without."""

    def __init__(self, work, bug, folder, tool, level):
        self.work, self.bug, self.folder, self.tool, self.level = work, bug, folder, tool, level
        self.package = PACKAGES[bug.package]
        self.compiler = [os.path.join(SCRIPTS, "traced_cc")] if tool == "find_faults" else ["gcc"]
        if tool == "AddressSanitizer":
            self.compiler += ["-fsanitize=address", "-fno-omit-frame-pointer"]
        self.flags = ["-w", "-g", level, *self.package.flags.split()]
        with open(os.path.join(SCRIPTS, "mte_scripts", "faults", "compiler_driver.py"), "rb") as file:
            self.driver = file.read() if tool == "find_faults" else b""

    def sources(self):
        left_out = self.package.left_out.split()
        found = [path for pattern in self.package.sources.split() for path in sorted(glob.glob(os.path.join(self.folder, pattern)))]
        return [path for path in found if not any(os.path.basename(path).startswith(each) or path.endswith(each) for each in left_out)]

    def compile(self, source, *more):
        with open(source, "rb") as file:
            name = hashlib.sha256(repr((self.compiler, self.flags, more, os.path.basename(source))).encode() + self.driver + file.read()).hexdigest()[:24]
        to = os.path.join(self.work, "objects", f"{self.package.name}.{name}.o")
        if not os.path.exists(to):
            status, _, said = run([*self.compiler, *self.flags, *more, "-c", source, "-o", f"{to}.{os.getpid()}"], self.folder)
            if status:
                raise OSError(f"{os.path.basename(source)} by {self.tool}: {said[-400:]}")
            os.rename(f"{to}.{os.getpid()}", to)
        return to

    def program(self, to):
        os.makedirs(os.path.join(self.work, "objects"), exist_ok=True)
        jobs = [(source,) for source in self.sources()] + [(os.path.join(PROGRAMS, self.bug.trigger.split()[0]),)]
        if self.bug.tool:
            jobs.append((os.path.join(self.folder, self.bug.tool), "-Dmain=tool_main"))
        with ThreadPoolExecutor(JOBS) as pool:
            objects = list(pool.map(lambda job: self.compile(*job), jobs))
        status, _, said = run([*self.compiler, "-g", *objects, "-o", to, "-lm", "-ldl", "-lpthread"], self.folder)
        if status:
            raise OSError(f"it does not link by {self.tool}: {said[-400:]}")
        return to


def place_of_run(work, bug):
    folder = tempfile.mkdtemp(dir=work)
    for name, text in bug.files.items():
        with open(os.path.join(folder, name), "w") as file:
            file.write(text)
    return folder


def is_at(functions, bug):
    return any(re.fullmatch(bug.wrong, name) or (bug.wrong in ("lua", "xml") and name.startswith(bug.wrong)) for name in functions)


def by_find_faults(program, bug, folder):
    """(what it says in a word, the odds, all that it says)"""
    measure = ["--measure", os.path.abspath(checks.options.measure)] if checks.options.measure else []
    words = [os.path.join(SCRIPTS, "find_faults"), "--json", "-", *measure, program, *bug.trigger.split()[1:]]
    status, told, said = run(words, folder)
    if status not in (0, 1, 3, 4) or not told:
        return SILENT, None, said
    found = [each for process in json.loads(told)["processes"] for each in process["findings"]]
    crash = any(each["kind"] == "crash" for each in found)
    here = [each for each in found if each["uses"] and is_at([frame["function"] for frame in each["frames"]], bug)]
    text = "\n".join(f"{each['kind']}: {each['what']}: {[frame['function'] for frame in each['frames']]}" for each in found)
    return (TOLD if here else CRASHED if crash else SILENT), (here[0]["odds"] if here else None), f"{status}\n{text}"


def by_sanitizer(program, bug, folder):
    _, _, said = run([program, *bug.trigger.split()[1:]], folder, ASAN_OPTIONS="detect_leaks=0:allocator_may_return_null=1")
    kind = re.search(r"ERROR: AddressSanitizer:? ([\w-]+)", said)
    functions = re.findall(r"^\s*#\d+ 0x[0-9a-f]+ in (\w+)", said.split("\n\n")[0], re.M)
    is_told = kind and kind[1] not in ("SEGV", "stack-overflow", "BUS", "ABRT") and is_at(functions, bug)
    return (TOLD if is_told else CRASHED if kind else SILENT), None, said[-1500:]


def by_valgrind(program, bug, folder):
    _, _, said = run(["valgrind", "-q", "--num-callers=30", program, *bug.trigger.split()[1:]], folder)
    for part in re.split(r"\n==\d+== \n", said):
        functions = re.findall(r"(?:at|by) 0x[0-9A-F]+: (\w+)", part.split("Address ")[0].split("Block was")[0])
        is_of_block = re.search(r"Invalid free|Invalid (?:read|write)[^\0]* bytes (?:after|before|inside) (?:a|an unallocated) block", part)
        if is_of_block and is_at(functions, bug):
            return TOLD, None, said[-1500:]
    return (CRASHED if "Process terminating with default action" in said else SILENT), None, said[-1500:]


ASKS = dict(zip(TOOLS, (by_find_faults, by_sanitizer, by_valgrind)))


def undo_fix(work, bug):
    """A copy of the sources without the fix."""
    folder = os.path.join(work, "broken", re.sub(r"\W+", "_", bug.patch))
    if not os.path.isdir(folder):
        shutil.copytree(os.path.join(work, "sources", bug.package), folder, symlinks=True)
        patch = os.path.join(folder, "debian", "patches", bug.patch)
        status, said, _ = run(["patch", "-R", "-p1", "--no-backup-if-mismatch", "-F3", "-f", "-i", patch], folder)
        rejected = re.findall(r"saving rejects to file (\S+)", said)
        if any(name.endswith((".c.rej", ".h.rej")) and "test" not in name for name in rejected) or (status and not rejected):
            fail(f"{bug.patch} is not taken back: {said[-400:]}")
    return folder


def try_bug(work, bug, shows):
    """The cells of a bug's row."""
    cells, odds = {}, None
    broken = undo_fix(work, bug)
    for tool in TOOLS:
        for level in LEVELS:
            program = os.path.join(work, f"program.{os.getpid()}")
            Build(work, bug, broken, tool, level).program(program)
            folder = place_of_run(work, bug)
            cells[tool, level], found, said = ASKS[tool](program, bug, folder)
            odds = odds or found
            shutil.rmtree(folder)
            if shows:
                print(f"== {tool} {level}: {cells[tool, level]}\n{said}", flush=True)
    Build(work, bug, os.path.join(work, "sources", bug.package), "find_faults", "-O0").program(program)
    folder = place_of_run(work, bug)
    status, told, said = run([os.path.join(SCRIPTS, "find_faults"), program, *bug.trigger.split()[1:]], folder)
    shutil.rmtree(folder)
    if "errors 0\n" not in told:
        fail(f"{bug.cves} with its fix: status {status}: {told[-800:]}{said[-300:]}")
    for value in (odds or {}).values():
        share = shares.Share(Fraction(value.get("fraction", "0")), value["exact"])
        for says, counted in value.get("measured", {}).items():
            expect(f"{bug.cves}: {says}: {value['text']}", heap_cases.is_true(share, counted["caught"], counted["runs"]), counted)
    texts = [odds[name]["text"].split(" (")[0] if odds else "" for name in ("this heap", "Scudo", "glibc")]
    return [one_cell(*(cells[tool, level] for level in LEVELS)) for tool in TOOLS] + texts


def one_cell(one, other):
    """What a tool says at both levels, in one cell."""
    return one if one == other else ", ".join(f"{level} {said}" for level, said in zip(LEVELS, (one, other)))


def table(work, bugs, shows=False):
    rows = [HEAD, "|" + "---|" * (HEAD.count("|") - 1)]
    for bug in bugs:
        try:
            cells = try_bug(work, bug, shows)
        except OSError as error:
            fail(f"{bug.cves}: {error}")
            continue
        rows.append("| " + " | ".join([bug.cves, f"{bug.package} {version(work, bug.package)}", bug.says, *cells]) + " |")
        if shows:
            print(rows[-1], flush=True)
    return rows


def without_versions(row):
    return re.sub(r"^(\| [^|]* \| \S+) [^|]*\|", r"\1 |", row)


class KnownBugs(checks.Part):
    def test_bugs(self):
        only = checks.options.only
        bugs = [bug for bug in BUGS if not only or only in bug.patch or only in bug.cves]
        work = os.path.abspath(checks.options.work or self.folder())
        checks.need("gcc cmake patch valgrind", "the known bugs")
        checks.with_heap()
        if not has_sources(work, sorted({bug.package for bug in bugs})):
            pytest.skip("without the sources of Debian: the known bugs")
        for name in {bug.package for bug in bugs}:
            configure_sources(work, PACKAGES[name])
        rows = table(work, bugs, bool(only))
        if checks.options.table:
            print("\n".join(rows))
        elif not only:
            with open(DOCUMENT, encoding="utf-8") as file:
                there = set(map(without_versions, file.read().split("\n")))
            for row in rows:
                expect(f"examples/errors/README.md has {row}", without_versions(row) in there)


def add_options(parser):
    parser.add_argument("--table", action="store_true", help="print the table of examples/errors/README.md")
    parser.add_argument("--measure", metavar="SCUDO", help="compare the odds for Scudo and glibc with what they do: find_faults --help says how")
    parser.add_argument("--only", metavar="NAME", help="the bugs whose patch or number has this")
    parser.add_argument("--work", metavar="FOLDER", help="keep the sources there, for the next time")


if __name__ == "__main__":
    checks.main()
