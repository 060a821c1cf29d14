"""Puts the page of scripts/page together from the sources in web/ and the engines in WebAssembly. `page --help` says all."""

import base64
import functools
import hashlib
import json
import os
import re
import subprocess
from collections.abc import Callable, Iterable

from mte_scripts import claim_words, html_safe, manifest, places, shell_words, text_files
from mte_scripts.builds import static_libraries
from mte_scripts.entry_point import Refusal, say
from mte_scripts.formats import MOST_INPUT
from mte_scripts.places import IS_PACKAGED, ROOT, SOURCES
from mte_scripts.tables import scudo_map
from mte_scripts.words import Words

HELP = """\
Print a page in HTML that tunes tables and shows the tagged heap step by step, in any browser.

Usage: page [--profile FILE] [--trace FILE] > page.html
       page --checker > checker.wasm

  --profile FILE  the profile, or the history, that the page begins with; one of the examples where it is left out
  --trace FILE    the trace that the page begins with; a use after free where it is left out. Without --profile its profile is tuned
  --checker       print no page: a module of WebAssembly that checks sheets and fits, as docs/LIBRARY.md says

The page is one file. It loads nothing from elsewhere, and opens from the disk: take other files by dropping them on it. The engines are
in it as WebAssembly. They are proved as MIR, which is what the compiler makes LLVM's module from; the steps from there to WebAssembly
are tested and not proved.

With the Rattle kit and wasm-opt (Debian: binaryen) it proves and compiles the engines where that was not done yet; without the kit it takes
those of docs/page.html.

Exit status:
  0  the page is printed
  2  the words or a file are refused
  3  a tool is missing, the engines could not be built, or a write failed

Example:
  scripts/page --trace examples/jq.trace > page.html
"""

WEB = os.path.join(ROOT, "web")
KEPT = "page.wasm"  # the module in the folder `out` of its crate; not NAME.wasm, which rt lib removes
# in the order in which they use one another
WORKER = ("formats", "engine", "words", "users", "events", "worker")
SCRIPT = ("formats", "base", "words", "claims", "counts", "pictures", "tune", "pair", "heap", "link", "main")
# the crate of each module, and how the names of its exported functions begin
MODULES = {"tool": ("mte_c", "mte_c_"), "steps": ("mte_step", "mte_step_")}
CHECKER = "checker"  # the module that checks certificates alone, of the first one's crate
DOCUMENTS = ("page.html", "checker.wasm")  # of the folder docs: what the project has built of them
# what the page's policy lets it do: compile the engines, and start the worker that it makes of its own text
ALLOWED = {"script-src": "'wasm-unsafe-eval'", "worker-src": "blob:"}
Named = tuple[str, str]  # a name and a text
EXAMPLES = {
    "the requests of sqlite3": "sqlite.profile",
    "the requests of jq": "jq.profile",
    "the requests of perl": "perl.profile",
    "the live blocks of sqlite3 over time": "sqlite_large.history",
}


def source(name: str) -> str:
    return text_files.read(os.path.join(WEB, name)).decode()


def scripts(names: "Iterable[str]") -> str:
    """The sources as one script; no word in it ends the element that it stands in."""
    return html_safe.code("\n".join(source(f"{name}.js") for name in names))


def example(name: str) -> str:
    return text_files.read(os.path.join(places.EXAMPLES, name)).decode()


def newest_source() -> float:
    """When a source of the crates, or of the way to WebAssembly, was changed last."""
    from mte_scripts.builds import webassembly

    files = [os.path.join(ROOT, "crates.txt"), webassembly.HEAP, webassembly.CHECKER, webassembly.__file__]
    for folder, below, names in os.walk(os.path.join(ROOT, "crates")):
        below[:] = [name for name in below if name != "out"]
        files += [os.path.join(folder, name) for name in names if name.endswith((".rt", ".antt"))]
    return max(os.stat(file).st_mtime for file in files)


def module_path(name: str) -> str:
    """Where a module is kept: in an installed package beside the sources of the page, else in its crate."""
    if IS_PACKAGED:
        return os.path.join(WEB, f"{name}.wasm")
    if name == CHECKER:
        return os.path.join(ROOT, "crates", MODULES["tool"][0], "out", "checker.wasm")
    return os.path.join(ROOT, "crates", MODULES[name][0], "out", KEPT)


@functools.lru_cache(maxsize=None)
def sources_at_first() -> str:
    """The hash of the sources, as they were when it was asked for first."""
    return manifest.sources_of(ROOT)


def is_old(kept: str, newest: float) -> bool:
    """Whether a module has to be built: it is older than a source, or not the one of the manifest that its build wrote beside it."""
    if not os.path.exists(kept) or os.stat(kept).st_mtime < newest:
        return True
    return not IS_PACKAGED and bool(manifest.why_unproved(kept, None) or manifest.read(kept).sources != sources_at_first())


def keep(kept: str, data: bytes, newest: float, sources: str) -> None:
    """Keeps a module that was just built of sources with this hash, with its manifest; none where they have changed since."""
    text_files.write_file(f"{kept}.new", data)
    os.utime(f"{kept}.new", (newest, newest))
    os.replace(f"{kept}.new", kept)
    manifest.put(kept, sources, "", ROOT)


def modules_of(page: str) -> "dict[str, bytes]":
    """The engines in a page that scripts/page printed."""
    text = text_files.read(page).decode(errors="replace")
    found = re.search(r'<script type="application/json" id="data">\s*(.*?)</script>', text, re.S)
    try:
        data = json.loads(found[1]) if found else {}
        return {name: base64.b64decode(data[name]) for name in MODULES}
    except (TypeError, ValueError, KeyError):
        raise Refusal(2, f"{page} is no page of scripts/page") from None


@functools.lru_cache(maxsize=None)
def why_undocumented() -> str:
    """Why docs/page.html or docs/checker.wasm is not known to be of the sources that are here, or an empty text."""
    found = {name: manifest.why_unproved(os.path.join(ROOT, "docs", name), SOURCES) for name in DOCUMENTS}
    return "; ".join(f"docs/{name}: {why}" for name, why in found.items() if why)


@functools.lru_cache(maxsize=None)
def of_documents() -> "dict[str, bytes] | None":
    """Those of docs/page.html and docs/checker.wasm, where these are of the sources that are here."""
    if why_undocumented():
        return None
    page_place, checker = (os.path.join(ROOT, "docs", name) for name in DOCUMENTS)
    return {**modules_of(page_place), CHECKER: text_files.read(checker)}


def at_hand() -> "dict[str, bytes] | None":
    """The bytes of each module where nothing has to be built for them, else None. Without the kit they are the project's."""
    if not IS_PACKAGED and not static_libraries.kit():
        return of_documents()
    places = {name: module_path(name) for name in (*MODULES, CHECKER)}
    if IS_PACKAGED and not os.path.exists(places[CHECKER]):  # made of a page, which has none
        del places[CHECKER]
    if not all(map(os.path.exists, places.values())):
        return None
    newest = 0 if IS_PACKAGED else newest_source()
    return None if any(is_old(kept, newest) for kept in places.values()) else {name: text_files.read(kept) for name, kept in places.items()}


def engines(tell: "Callable[[str], None]" = lambda words: None) -> "dict[str, bytes]":
    """The bytes of each module, built where it is none of these sources."""
    from mte_scripts.builds import webassembly

    found: "dict[str, bytes]" = {}
    newest = newest_source()
    for name, (crate, prefix) in MODULES.items():
        made = (name, CHECKER) if name == "tool" else (name,)
        if any(is_old(module_path(each), newest) for each in made):
            tell(f"proving {crate} and compiling it to WebAssembly; the first time this takes as long as proving all")
            for each, data in zip(made, webassembly.modules(crate, prefix, CHECKER in made)):
                keep(module_path(each), data, newest, sources_at_first())
        found |= {each: text_files.read(module_path(each)) for each in made}
    return found


def build_engines(name: str) -> "dict[str, bytes]":
    """The same for a script of this name, which is refused where they can't be built."""
    if IS_PACKAGED or not static_libraries.kit():
        if modules := at_hand():
            return modules
        if IS_PACKAGED:
            raise Refusal(3, "this package was made without the page's engines")
        raise Refusal(3, f"without the kit there are no engines for the page: {why_undocumented()}")
    from mte_scripts.builds import webassembly

    try:
        return engines(lambda words: say(name, words))
    except webassembly.MissingTool as missing:
        raise Refusal(3, f"the page wants {missing}") from None
    except (subprocess.CalledProcessError, OSError, ValueError) as error:
        raise Refusal(3, f"the engines of the page could not be built: {error}") from None


def page(modules: "dict[str, bytes]", profile: "Named | None" = None, trace: "Named | None" = None, replay: "dict | None" = None,
         options: "dict | None" = None) -> str:
    """The page. A profile (or a history) and a trace are (name, text), or left out. OPTIONS are those with which it tunes first: the limit,
    the step, and whether class 1024 is kept. A trace may come with its replay: the class line, the numbers of the heap, and notes, each
    (event, text)."""
    data: dict = {name: base64.b64encode(modules[name]).decode() for name in MODULES}
    data["digests"] = {name: hashlib.sha256(modules[name]).hexdigest() for name in MODULES}
    data["examples"] = {name: example(file) for name, file in EXAMPLES.items()}
    data["scudo"], data["android"] = example("scudo.classes").strip(), example("scudo_android.classes").strip()
    data["importer"] = f"{shell_words.command_name('profile_program')} --import"
    data["claims"], data["map"] = claim_words.TEMPLATES, scudo_map.for_page()
    data["given"] = {
        name: {"name": html_safe.escape_unprintable(of[0]), "text": of[1]}
        for name, of in (("profile", profile), ("trace", trace))
        if of
    }
    if options:
        data["given"]["options"] = options
    if replay:
        data["given"]["replay"] = replay
    parts = {
        "STYLE": source("style.css").strip(),
        "WORKER": scripts(WORKER).strip(),
        "SCRIPT": scripts(SCRIPT).strip(),
        "DATA": html_safe.data(data),
    }
    whole = source("page.html")
    for name, text in parts.items():
        before, mark, after = whole.partition(f"@{name}@")
        assert mark, f"web/page.html has no @{name}@"
        whole = before + text + after
    return html_safe.with_policy(whole, ALLOWED)


def read_input(path: str) -> Named:
    data = text_files.read(path, MOST_INPUT + 1)
    if len(data) > MOST_INPUT:
        raise Refusal(2, f"{path} has more than {MOST_INPUT} bytes")
    if not data.isascii() or b"\0" in data:
        raise Refusal(2, f"{path} is binary, and no text")
    return (text_files.input_name(path) if path == "-" else os.path.basename(path)), data.decode()


def print_page(words: "list[str]") -> int:
    files = {
        name: file for name, file in vars(Words(HELP, profile=read_input, trace=read_input).take(words)).items() if file
    }
    if not files.pop("checker", False):
        return text_files.write(page(build_engines("page"), **files))
    if files:
        raise Refusal(2, "--checker prints no page, which would begin with a file")
    modules = build_engines("page")
    if CHECKER not in modules:
        raise Refusal(3, "this package was made of a page, and has no checker")
    return text_files.write(modules[CHECKER])
