"""Findings as SARIF 2.1.0 of OASIS, which code hosts and editors read; and as the annotations of a workflow of GitHub's."""

import os
from collections.abc import Iterator

from mte_scripts.faults import fault_entries, findings
from mte_scripts.faults.fault_entries import KINDS
from mte_scripts.faults.variables import TITLE

SCHEMA = "https://docs.oasis-open.org/sarif/sarif/v2.1.0/errata01/os/schemas/sarif-schema-2.1.0.json"
ROOT = "SRCROOT"
SEVERITY = "8.0"  # of the Common Vulnerability Scoring System, as a code host sorts by it: high
STATES = {"new": "new", "known": "unchanged"}
MOST_RUNS_OF_FILE = 20  # that GitHub takes


def rule(kind: str) -> dict:
    text, *cwes = KINDS[kind]
    tags = ["security", *(f"external/cwe/cwe-{cwe}" for cwe in sorted({cwe for cwe in cwes if cwe}))]
    return {"id": findings.kind_id(kind), "shortDescription": {"text": text}, "fullDescription": {"text": f"{text}."},
            "defaultConfiguration": {"level": "error"}, "properties": {"tags": tags, "security-severity": SEVERITY}}


def quote_for_uri(text: str) -> str:
    """A text as a part of a URI."""
    from urllib.parse import quote

    return quote(text, errors="surrogateescape")


def uri_of(path: str) -> str:
    """The URI of a file's whole path."""
    from pathlib import PurePosixPath

    return PurePosixPath(path).as_uri()


def artifact(path: str) -> dict[str, str]:
    """Where a file is: under the root, or by its whole path."""
    return {"uri": uri_of(path)} if os.path.isabs(path) else {"uri": quote_for_uri(path), "uriBaseId": ROOT}


def location(frame: dict, message: "str | None" = None) -> dict:
    value: dict = {"logicalLocations": [{"name": frame["function"], "kind": "function"}]}
    if frame["file"]:
        value["physicalLocation"] = {"artifactLocation": artifact(frame["file"])}
        if frame["line"]:
            value["physicalLocation"]["region"] = {"startLine": frame["line"]}
    return value | ({"message": {"text": message}} if message else {})


def stack(frames: list[dict], message: str) -> dict:
    made = [{"location": location(frame)} | ({"module": os.path.basename(frame["module"])} if frame["module"] else {}) for frame in frames]
    return {"message": {"text": message}, "frames": made}


def finding_text(value: dict) -> str:
    """The text of a finding."""
    parts = [value["what"][:1].upper() + value["what"][1:] + "."]
    if value["result"]:
        parts.append(f"On the tagged heap: {value['result']}, {value['why']}.")
    for case in (value.get("variable") or {}).get("stack_tagging_model") or ():
        parts.append(f"{TITLE}: {': '.join(filter(None, case.values()))}.")
    if value["odds"]:
        parts.append("Odds of being caught: " + ", ".join(f"{name} {share['text']}" for name, share in value["odds"].items()) + ".")
    return " ".join(parts)


def result(value: dict, kinds: list[str], has_baseline: bool) -> dict:
    stacks = [(value["frames"], "The wrong access" if value["kind"] != fault_entries.CRASH else "The crash"),
              (value["allocated"], "Allocated"), (value["ended"], "Freed or resized")]
    made = {
        "ruleId": findings.kind_id(value["kind"]),
        "ruleIndex": kinds.index(value["kind"]),
        "level": "error",
        "message": {"text": finding_text(value)},
        "occurrenceCount": max(value["times"], 1),
        "partialFingerprints": {"findFaults/v1": value["id"]},
        "stacks": [stack(frames, message) for frames, message in stacks if frames],
    }
    if value["frames"]:
        made["locations"] = [location(value["frames"][0])]
    related = [location(frames[0], message) for frames, message in stacks[1:] if frames]
    if related:
        made["relatedLocations"] = [{"id": at, **each} for at, each in enumerate(related)]
    if value.get("state") == "suppressed":
        made["suppressions"] = [{"kind": "external", "justification": value["suppressed_by"]}]
    if has_baseline:
        made["baselineState"] = STATES.get(value.get("state"), "unchanged")
    properties = {key: value[key] for key in ("cwe", "result", "odds", "block", "variable") if value.get(key) is not None}
    return made | ({"properties": properties} if properties else {})


def document(answer: dict, has_baseline: bool = False) -> dict:
    """Of the answer of findings.document: a run for each program, with all rules; one for all, where these are more than a code host takes."""
    kinds = list(KINDS)
    programs = sorted({process["name"] for process in answer["processes"]})
    names = programs if len(programs) <= MOST_RUNS_OF_FILE else [answer["program"]]
    of_name = {name: [process for process in answer["processes"] if process["name"] == name or names != programs] for name in names}
    runs = [run(name, processes, answer, kinds, has_baseline) for name, processes in of_name.items()]
    return {"$schema": SCHEMA, "version": "2.1.0", "runs": runs}


def run(name: str, processes: "list[dict]", answer: dict, kinds: "list[str]", has_baseline: bool) -> dict:
    """What the processes of a program have, each cause once."""
    said = dict.fromkeys(each for process in processes for each in process["incomplete"])
    missing = [{"level": "warning", "message": {"text": each}} for each in said]
    invocation: dict = {"executionSuccessful": not missing}
    if answer["ended"] is not None:
        invocation["exitCode"] = answer["ended"]
    causes: "dict[str, dict]" = {}
    for value in (each for process in processes for each in process["findings"]):
        known = causes.setdefault(value["id"], value)
        if known is not value:
            causes[value["id"]] = {**known, "times": known["times"] + value["times"]}
    return {
        "tool": {"driver": {"name": "find_faults", "rules": [rule(kind) for kind in kinds]}},
        "automationDetails": {"id": f"find_faults/{quote_for_uri(name)}/"},
        "originalUriBaseIds": {ROOT: {"uri": uri_of(findings.root()).rstrip("/") + "/"}},
        "invocations": [invocation | ({"toolExecutionNotifications": missing} if missing else {})],
        "columnKind": "utf16CodeUnits",
        "results": [result(each, kinds, has_baseline) for each in causes.values()],
    }


def escape_annotation(text: str, of_property: bool = False) -> str:
    """As the runner of GitHub's workflows reads it."""
    for mark, code in (("%", "%25"), ("\r", "%0D"), ("\n", "%0A"), *(((":", "%3A"), (",", "%2C")) if of_property else ())):
        text = text.replace(mark, code)
    return text


def annotations(answer: dict) -> Iterator[str]:
    """A line for each cause that is neither known nor suppressed, whichever processes have it: a runner shows it beside its source line."""
    told = set()
    for value in (each for process in answer["processes"] for each in process["findings"]):
        if value.get("state", "new") != "new" or value["id"] in told:
            continue
        told.add(value["id"])
        place = next((frame for frame in value["frames"] if frame["file"] and not os.path.isabs(frame["file"])), None)
        where = f"file={escape_annotation(place['file'], True)},line={place['line'] or 1}," if place else ""
        callers = "".join(f"\nfrom {findings.place(frame)}" for frame in value["frames"][1:])
        title, words = escape_annotation(KINDS[value["kind"]].text, True), escape_annotation(finding_text(value) + callers)
        yield f"::error {where}title={title}::{words}"
