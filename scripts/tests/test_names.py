"""Lists the names in documents that stand nowhere else in the repository: of definitions, lemmas, laws, functions, edits and crates. A name is
a word in backticks that has `_` or a capital after a small letter. Names of other programs are listed below.

And the names of functions, classes and modules by which nothing is found (bare_names.py)."""

import pathlib
import re

import checks
import parts_alone
from bare_names import bare_names
from checks import expect
from python_sources import tracked_files

ROOT = pathlib.Path(__file__).resolve().parent.parent.parent

# what is not the repository's: names of Scudo, PHP, jq, glibc, std and other crates, and patterns of names
OTHERS = set(
    """AndroidSizeClassConfig NumBits SCUDO_OPTIONS StrPair TableSizeClassMap USE_ZEND_ALLOC VecDeque compute_size_class_config
    jvp_string_append linked_list_allocator malloc_info mte_arrays_NAME mte_c_NAME mte_heap_NAME mte_tool_NAME mte_tool-tune
    release_to_os_interval_ms start_lib validateMap wrappers_cpp xmlNode""".split()
)
WORD = re.compile(r"(?<![\w/.<-])[A-Za-z][A-Za-z0-9_]*(?:[-'][A-Za-z0-9_]+)*(?![\w/.-])")
IDENTIFIER = re.compile(r"[A-Za-z_][A-Za-z0-9_]*(?:[-'][A-Za-z0-9_]+)*")


def names_in(text: str) -> set[str]:
    """The names in a text, whole and by their parts at a dash."""
    found = set(IDENTIFIER.findall(text))
    return found | {part for name in found for part in re.split("[-']", name)}


def is_name(word: str) -> bool:
    return len(word) > 2 and ("_" in word.strip("_") or bool(re.search("[a-z][A-Z]", word))) and not word.endswith("_")


def spans(text: str) -> list[str]:
    """What stands in backticks, outside blocks of code."""
    text = re.sub(r"^```.*?^```", "", text, flags=re.S | re.M)
    kept = [line for line in text.split("\n") if not line.startswith("    ")]
    return re.findall(r"`([^`\n]+)`", "\n".join(kept))


class Names(checks.Part):
    def test_documents(self):
        checks.need(" ".join(part.modules for part in parts_alone.PARTS.values()), "the names in documents, which are of all parts")
        files = [path for path in map(ROOT.joinpath, tracked_files()) if path.is_file()]
        known = set(OTHERS)
        for path in files:
            known |= names_in("/".join(path.relative_to(ROOT).parts))
            if path.suffix not in (".md", ".png", ".svg"):
                known |= names_in(path.read_text(encoding="utf-8", errors="replace"))
        for path in [path for path in files if path.suffix == ".md"]:
            words = {word for span in spans(path.read_text(encoding="utf-8")) for word in WORD.findall(span)}
            # a package calls `find_faults` `mte_find_faults`
            unknown = sorted(word for word in words if is_name(word) and word not in known and word.removeprefix("mte_") not in known)
            expect(f"{path.relative_to(ROOT)}: names that stand nowhere else", not unknown, *unknown)

    def test_functions(self):
        there = list(bare_names())
        expect("names of neither a verb nor a noun", not there, *there)
