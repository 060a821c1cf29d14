"""What find_faults answers to the reports of other tools: the text, and the files for other programs. Reports of one
cause are told once."""

import argparse
import os
from collections import Counter
from types import SimpleNamespace
from typing import Any

from mte_scripts import certificate_texts, text_files
from mte_scripts.faults import fault_answer, fault_entries, findings, report_verdicts, shares
from mte_scripts.faults.fault_places import Frame
from mte_scripts.faults.fault_report import MOST_USES, count, often, sentence
from mte_scripts.faults.report_verdicts import DEPENDS, HEAPS, RESULTS, Case, Judged, Layout
from mte_scripts.faults.sanitizer_reports import CRASH, LARGEST_LOG, NO_BLOCK, Report, read_reports
from mte_scripts.faults.variables import tell_variable, value_of
from mte_scripts.places import EXAMPLES

TABLE = "scudo_android.classes"  # the classes of Android's Scudo
# options of a run
UNUSED = "keep page only unfreed children preload seeds measure tombstones tombstone asan halt".split()


def is_asked(options: argparse.Namespace) -> bool:
    """Whether --read names reports, and no folder that --keep made."""
    return bool(options.read) and not os.path.isdir(options.read)


def refuse_options(options: argparse.Namespace) -> "str | None":
    """What is wrong with the words, if something is."""
    if unused := [name for name in UNUSED if getattr(options, name)]:
        return f"a report has no run in it, so --{unused[0]} has nothing to tell"
    if options.annotations and "-" in (options.json, options.sarif):
        return "--json - and --sarif - take the place of the text, and so of what --annotations prints: name a file"
    return None


def answer_reports(options: argparse.Namespace, lists: Any) -> int:
    layout = Layout(certificate_texts.class_line(options.table or os.path.join(EXAMPLES, TABLE)), options.granules)
    judge, values, others = Judge(layout), dict[tuple, dict](), Counter[str]()
    number = 0
    for path in (options.read, *options.words):
        reports, more = read_reports(text_files.read_some(path, LARGEST_LOG, "are read of a report"), text_files.input_name(path))
        others.update(more)
        for report in reports:
            judge.add(report, values)
        number += len(reports) + len(more)
    found = list(values.values())
    for value in found:
        finish_finding(value)
    findings.number_ids(found)
    lists.mark(found)
    name, status = os.path.basename(options.read), int(any(value["state"] == "new" for value in found))
    answer = findings.document(name, status, None, [{"name": name, "log": name, "findings": found, "incomplete": []}])
    lines = [line for value in found if value["state"] == "new" for line in tell_finding(value)]
    lines += totals(found, others, number) + fault_answer.counts([SimpleNamespace(values=found)], lists.known)
    fault_answer.write(options, lines, answer)
    return status


class Judge:
    """Makes a finding of each cause, as findings.finding does, with its cases beside."""

    def __init__(self, layout: Layout) -> None:
        self.layout = layout
        self.known: "dict[Report, Judged]" = {}

    def add(self, report: Report, values: "dict[tuple, dict]") -> None:
        alike = report._replace(frames=(), made=(), ended=())
        if alike not in self.known:
            self.known[alike] = report_verdicts.judge_report(report, self.layout)
        judged = self.known[alike]
        key = judged.kind, report.act, report.variable and report.variable.name, *map(lines_of, (report.frames, report.made, report.ended))
        value = values.setdefault(key, new_finding(report, judged))
        use = {"what": sentence_of(report, judged), "result": judged.result, "why": judged.why}
        if same := next((each for each in value["uses"] if use.items() <= each.items()), None):
            same["times"] += 1
        elif judged.result and len(value["uses"]) < MOST_USES:
            frame = value["frames"][0] if value["frames"] else None
            value["uses"].append({**use, "cases": list(map(case_value, judged.cases)), "times": 1, "frame": frame})
        value["times"] += 1


def lines_of(frames: "list[Frame]") -> tuple:
    return tuple((frame.function, frame.source, frame.line) for frame in frames[: fault_entries.SAME_CALLERS])


def sentence_of(report: Report, judged: Judged) -> str:
    if report.act == CRASH:
        return report.detail
    if judged.error.letter == "V" and not judged.error.block:
        return f"overlapping copy of {count(report.length, 'byte')}"
    if report.where == NO_BLOCK and not judged.error.is_free():
        done = "load" if judged.error.is_load() else "store"
        return f"{done} of {count(report.length, 'byte')}, of which the report names no block ({report.word})"
    blocks: Any = SimpleNamespace(size=[0, judged.size])
    said = sentence(judged.error, blocks)
    return said if judged.error.block or judged.error.variable else f"{said} ({report.word})"


def new_finding(report: Report, judged: Judged) -> dict:
    error = judged.error
    block = {"bytes": judged.size, "offset": error.offset, "state": error.state} if error.block else None
    variable = {"variable": value_of(error.variable, error.size)} if error.variable else {}
    return findings.begin_finding(
        judged.kind, report.frames, report.made, report.ended, cwe=findings.cwe_of(judged.kind, error), cases=[],
        what=sentence_of(report, judged), result=judged.result, why=judged.why, times=0, block=block, tool=report.tool, **variable
    )


def case_value(case: Case) -> dict:
    odds = {name: shares.as_value(share) for name, share in zip(HEAPS, case.odds)} if case.odds else None
    return {"if": case.supposed, "result": case.result, "why": case.why, "odds": odds}


def finish_finding(value: dict) -> None:
    """The result of a cause: that of its report which is caught most surely. Of one answer the odds are its cases'."""
    if not value["uses"]:
        return
    use = min(value["uses"], key=lambda each: RESULTS.index(each["result"]))
    value |= {"result": use["result"], "why": use["why"], "cases": use["cases"]}
    odds = [case["odds"] for case in use["cases"]]
    if odds[0] and all(each == odds[0] for each in odds):
        value["odds"] = odds[0]
    if use["result"] == DEPENDS:
        value["why"] = "; ".join(f"{case['if']}: {case['result']}{in_scudo(case)}" for case in use["cases"])


def in_scudo(case: dict) -> str:
    return f" (Scudo {case['odds']['Scudo']['text']})" if case["odds"] else ""


# what is printed and written


def tell_finding(value: dict) -> "list[str]":
    shown = [findings.place(frame) for frame in value["frames"]] or ["an unknown place"]
    lines = [f"{shown[0]}: {value['what']}{often(value['times'])}", *(f"    from {caller}" for caller in shown[1:])]
    first, *others = value["uses"] or [None]
    lines += [f"    {line}" for line in tell_cases(first)] if first else []
    lines += [f"    then {use['what']}{often(use['times'])}: {use['result']}: {use['why']}" for use in others]
    lines += [f"    {line}" for line in tell_variable(value["variable"])] if "variable" in value else []
    for words, frames in (("allocated", value["allocated"]), ("freed", value["ended"])):
        lines += [f"    {words} at {', from '.join(map(findings.place, frames))}"] * bool(frames)
    return lines


def tell_cases(use: dict) -> "list[str]":
    """What the heap makes of a report: one answer, or what it depends on."""
    cases = use["cases"]
    if use["result"] != DEPENDS:
        return [f"{use['result']}: {use['why']}", *[odds_line(cases[0])] * bool(cases[0]["odds"])]
    lines = ["it depends:"]
    for case in cases:
        lines += [f"    {case['if']}: {case['result']}: {case['why']}", f"        {odds_line(case)}"]
    return lines


def odds_line(value: dict) -> str:
    odds = value["odds"] or {}
    return "odds: " + (", ".join(f"{heap} {share['text']}" for heap, share in odds.items()) or "not derived")


def totals(found: "list[dict]", others: "Counter[str]", number: int) -> "list[str]":
    told = [value for value in found if value["state"] == "new"]
    results = Counter(value["result"] for value in told)
    lines = [f"reports {number}", f"errors {len(told)}", *(f"{result} {results[result]}" for result in RESULTS)]
    lines += [f"crashed {results[None]}"] * bool(results[None])
    left_out = (f"{count(times, 'report')} without an access: {word}" for word, times in sorted(others.items()))
    return lines + [f"left out: {each}" for each in left_out]
