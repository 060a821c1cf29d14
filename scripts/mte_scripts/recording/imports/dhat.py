"""The JSON of DHAT, valgrind's or the Rust crate's: the blocks and bytes of each stack."""

import re

from mte_scripts.recording.imports import import_result, json_text
from mte_scripts.recording.imports.import_result import Buckets, ImportResult
from mte_scripts.recording.imports.source import Source, Wrong

NAME = "dhat"
WHAT = "the JSON of DHAT (valgrind --tool=dhat, or Rust's crate)"
KINDS = (import_result.ALL, import_result.LIVE)

BEGIN = re.compile(rb'\A\s*\{.*"dhatFileVersion"', re.DOTALL)
VERSION = 2
MODES = ("heap", "rust-heap")
# the names of blocks and bytes
MEMBERS = {import_result.ALL: ("tbk", "tb"), import_result.LIVE: ("gbk", "gb")}


def read(source: Source, kind: str) -> ImportResult:
    value = json_text.parse_json(source.whole())
    version, mode = json_text.member(value, "dhatFileVersion", int), json_text.member(value, "mode", str)
    if version != VERSION or mode not in MODES:
        raise Wrong(f"it is of version {version} and mode {mode[:40]}: read are version {VERSION}, modes {' and '.join(MODES)}")
    buckets, known = Buckets(), 0
    for point in json_text.member(value, "pps", list):
        blocks, total = (json_text.natural(json_text.member(point, name, int)) for name in MEMBERS[kind])
        buckets.add(blocks, total)
        known += blocks if "acc" in point else 0
    told = buckets.told("DHAT")
    if known:
        of = "DHAT has the accesses of their stacks, which it follows where all blocks have one size"
        told.append(f"{import_result.number(known, 'block')} are exact: {of}")
    if kind == import_result.LIVE:
        told.append("the live blocks are those when the most bytes were live")
    return ImportResult(kind, buckets.counts, told)
