"""Tests that every sentence on a table comes from claims.py, and is true. The commands are run over cases that are right, refused, forced, divided,
wide and empty. claims.py puts marks around what it hands out, since MTE_MARK_CLAIMS is set: what is left without that must not say that
something is proved, optimal, best or least, or that no table is better. Each claim is read back: its file has the digest and the counts that it
names, and of small cases its cost is that of the first of all tables, by the definitions. Last, faults are put into a copy of the scripts, one by
one, and each has to be found.

It runs over the built program, or over the plain one where that is not built, or over the one that MTE_TOOL names."""

import concurrent.futures
import hashlib
import html
import itertools
import json
import os
import random
import re
import shutil
import subprocess

os.environ["MTE_MARK_CLAIMS"] = "1"  # before claim_words is imported

import checks
import claims_cases
from checks import expect
from claims_cases import CLAIM, COST, footprint, lowest, waste
from mte_scripts import claim_words, claims, count_texts, program_runs, shell_words
from mte_scripts.formats import MOST_COUNT
from mte_scripts.places import ROOT

OPEN, CLOSE = claim_words.MARKS
WORDS = re.compile(r"(?i)\b(proved|optimal|best|least|no (?:other )?tables?|no other pools?|none (?:of these |is |has )?\w*(?:wastes?|takes?|stays?|lower|better|costs?))\b")
# the checker's word, what is not so, and other meanings
ELSE = re.compile(
    r"(?i)`optimal`|>optimal<|at least|(?:nothing is|not|and not|called|to be) proved|proved program|data-(?:verdict|proved)=\S+|\"is_proved\": \w+"
    r"|No table within these is made|the least (?:time|processor time|that holds it)|of least room|proved and built|\bproved by\b"
)
NAMES = [claim_words.TEMPLATES[f"{kind}.table"] for kind in ("profile", "timeline")]
SCRIPTS = """check_sheet draw_waste fleet_day fleet_profiles fleet_regret fleet_rollout fleet_table fleet_trial
    memcached_profile memcached_sizes merge_profiles pools profile_program report scudo_classes trace_program tune_allocator tune_program""".split()


# ---- the cases

def write(place, name, text):
    with open(os.path.join(place, name), "w", encoding="utf-8") as file:
        file.write(text)


def timeline(events, seed, sizes):
    chosen, live, lines = random.Random(seed), [], ["timeline"]
    for _ in range(events):
        if live and chosen.random() < 0.47:
            lines.append(f"-{live.pop(chosen.randrange(len(live)))}")
        else:
            live.append(chosen.choice(sizes))
            lines.append(str(live[-1]))
    return "\n".join(lines) + "\n"


def write_inputs(place):
    """What the commands read, and the programs that answer otherwise."""
    write(place, "app.profile", "24 3\n40 1\n100 2\nlarge 4\n")
    write(place, "odd.profile", "100 2\n24 1\n40 1\n24 2\n")
    write(place, "other.profile", "24 3\n90 5\n")
    write(place, "app.history", "snapshots 3\n24 1 5 2\n40 3 0 1\nlarge 0 1 0\n")
    write(place, "app.timeline", timeline(24, 3, [24, 40, 100]))
    write(place, "long.timeline", timeline(20_000, 5, [24, 40, 100, 520, 3000]))
    write(place, "huge.profile", "16 1000000000000\n24 7\n40 500000000\n")
    write(place, "huge.history", "snapshots 2\n16 1000000000000 5\n40 7 9\n")
    write(place, "none.profile", "large 3\n")
    write(place, "empty", "")
    write(place, "that serve every profile of this machine", "24 3\n40 1\n100 2\nlarge 4\n")
    rows = [f"redis\t7\tm{machine}\t2026-01-0{day}\t1\t{moment}\t{size}\t{size % 7 + machine + moment}\n"
            for machine, day, moment, size in itertools.product((1, 2, 3), (1, 2), (0, 1, 2), (24, 100, 300))]
    write(place, "rows.tsv", "".join(rows))
    program = program_runs.program()
    for name, test, answer in (("refusing", '"$1" = check -o "$1" = check-fit', "refused 47 NotTight"),
                               ("bounding", '"$1 $(head -n 1 "$all")" = "fit timeline"',
                                "classes 4 9 1024\\nfootprint 5000\\nnot shown least: no table takes less than 4000")):
        keep = 'all=$(mktemp); cat > "$all"'
        write(place, name, f'#!/bin/sh\n{keep}; if [ {test} ]; then printf "{answer}\\n"; s=1; else {program} "$@" < "$all"; s=$?; fi; rm "$all"; exit $s\n')
        os.chmod(os.path.join(place, name), 0o755)
    for words, of in (("tune --limit 2", "app.profile"), ("tune --limit 2 --step 2 --largest-class 1", "app.profile"), ("fit --limit 2", "app.history"),
                      ("fit --limit 2", "app.timeline"), ("tune --limit 2", "other.profile")):
        with open(os.path.join(place, of), "rb") as file:
            status, out, error = program_runs.mte_tool(words.split(), file.read())
        expect(f"{words}: {error}", status == 0)
        name = "forced" if "largest" in words else of.replace(".", "_")
        write(place, f"{name}.{'fit' if words.startswith('fit') else 'sheet'}", out.decode())
    write(place, "table.classes", "classes 4 9 1024\n")


# the name of a case, its command, its exit status, and the program that answers in place of the one that is tested
CASES = [
    ("right", "tune_program --limit 3 --no-largest --output T1 --read app.profile", 0),
    ("forced", "tune_program --limit 3 --output T2 --read app.history", 0),
    ("forced", "tune_program --limit 2 --step 8 --output T3 --read app.timeline", 0),
    ("right", "tune_program --limit 2 --no-largest --objective waste --output T4 --read app.timeline", 0),
    ("refused", "tune_program --output T5 --read app.timeline", 3, "refusing"),
    ("bounded", "tune_program --output T6 --read app.timeline", 0, "bounding"),
    ("divided", "tune_program --limit 3 --scale --output T7 --read huge.profile", 0),
    ("divided", "tune_program --limit 2 --step 2 --scale --output T8 --read huge.history", 0),
    ("too many", "tune_program --output T9 --read huge.profile", 2), ("too many", "tune_program --output T10 --read huge.history", 2),
    ("empty", "tune_program --output T11 --read none.profile", 3), ("empty", "tune_program --output T12 --read empty", 3),
    ("wide", "tune_program --limit 2 --step 8 --output T13 --read long.history --upper long.upper", 0),
    ("right", "report app.profile app_profile.sheet", 0), ("forced", "report odd.profile forced.sheet", 0),
    ("refused", "report other.profile app_profile.sheet", 1), ("refused", "report app.profile app_profile.sheet", 1, "refusing"),
    ("right", "check_sheet app_profile.sheet app.profile", 0), ("forced", "check_sheet --step 2 forced.sheet app.profile", 0),
    ("right", "check_sheet app_history.fit app.history", 0), ("right", "check_sheet app_timeline.fit app.timeline", 0),
    ("refused", "check_sheet app_profile.sheet other.profile", 1), ("empty", "check_sheet app_profile.sheet empty", 2),
    ("right", "check_sheet app_profile.sheet 'that serve every profile of this machine'", 0),
    ("right", "draw_waste app.profile other.profile", 0), ("empty", "draw_waste none.profile", 2),
    ("right", "merge_profiles app.profile other.profile", 0), ("divided", "merge_profiles huge.profile", 0),
    ("right", "fleet_regret --limit 2 --no-largest table.classes app.profile app.history app.timeline", 0),
    ("forced", "fleet_regret --limit 3 --json --plot days.svg table.classes rows.tsv huge.profile", 0), ("refused", "fleet_regret table.classes app.profile", 3, "refusing"),
    ("bounded", "fleet_regret table.classes app.timeline", 0, "bounding"), ("empty", "fleet_regret table.classes none.profile", 3),
    ("forced", "fleet_table --limit 3 --certificates C1 app.profile other.profile", 0), ("total", "fleet_table --limit 3 --by total app.profile other.profile", 0),
    ("total", "fleet_table --by total --certificates C2 app.history app.timeline", 0), ("right", "fleet_table --limit 2 --no-largest --json app.history app.timeline", 0),
    ("forced", "fleet_day --day 2026-01-02 --table table.classes --limit-percent 1 rows.tsv", 1),
    ("right", "pools --limit 2 --certificate P1 app.timeline", 0), ("right", "pools --limit 3 --overhead 8 --each app.history", 0),
    ("right", "pools --limit 2 --as c app.timeline", 0), ("refused", "pools --check app.pools app.history", 2),
    ("refused", "pools --check app.pools long.timeline", 1), ("right", "pools --check app.pools app.timeline", 0),
    ("right", "tune_allocator jemalloc --limit 3 --output A1 --read app.timeline", 0), ("right", "tune_allocator musl --read app.history", 0),
    ("right", "tune_allocator aset --read app.profile", 0), ("refused", "tune_allocator jemalloc --read app.history", 3, "refusing"),
    ("bounded", "tune_allocator go --read app.timeline", 3, "bounding"),
    *(("help", f"{name} --help", 0) for name in SCRIPTS),
]


def run_case(scripts, place, case):
    """All that a case prints and writes: texts by their names."""
    kind, words, status, *program = case
    variables = {**os.environ, "MTE_TOOL": os.path.join(place, program[0]) if program else program_runs.program()}
    before = {name for name in os.listdir(place)}
    done = subprocess.run(["bash", "-c", f"{scripts}/{words}"], cwd=place, env=variables, capture_output=True, stdin=subprocess.DEVNULL)
    found = {"standard output": done.stdout.decode(errors="replace"), "standard error": done.stderr.decode(errors="replace"), "status": str(done.returncode)}
    made = re.findall(r"(?:--output|--certificates|--plot) (\S+)", words)
    for name in [each for each in made if each not in before and os.path.exists(os.path.join(place, each))]:
        path = os.path.join(place, name)
        for file in [path] if os.path.isfile(path) else [os.path.join(path, each) for each in sorted(os.listdir(path)) if each != "page.html"]:
            with open(file, encoding="utf-8", errors="replace") as opened:
                found[os.path.relpath(file, place)] = opened.read()
    return found


# ---- what is wrong with it

def plain(text):
    """A text without tags and escapes, as one line."""
    text = re.sub(r"(?m)^ \* ", "", text)  # of a comment in C
    if text.startswith("{"):
        text = json.dumps(json.loads(text), ensure_ascii=False).replace('\\"', '"').replace("\\\\", "\\")
    return " ".join(html.unescape(re.sub(r"<style.*?</style>|<!DOCTYPE[^>]*>", " ", text, flags=re.S)).split())


def faults(kind, words, found, place):
    """What is false, or has not come through claims.py, of what a case printed."""
    for name, text in found.items():
        if name.endswith((".timeline", ".history", ".profile", ".sheet", ".fit", "status")):
            continue
        text = plain(text)
        left = ELSE.sub(" ", re.sub(f"{OPEN}[^{CLOSE}]*{CLOSE}", " ", text))
        for match in WORDS.finditer(left):
            yield f"{name} says by itself `{left[max(match.start() - 60, 0) : match.end() + 60]}`"
        if re.search(r"\|\s*\S*mte_tool check", text):
            yield f"{name} prints a command without a border of its texts"
        for said in re.findall(f"{OPEN}([^{CLOSE}]*){CLOSE}", text):
            yield from (f"{name}: {fault}" for fault in faults_of(said, kind, words, place))
    yield from faults_of_kind(kind, words, found)


def faults_of(said, kind, words, place):
    """What is wrong with a sentence of claims.py."""
    is_sure = WORDS.search(ELSE.sub(" ", said)) and said not in NAMES
    if is_sure and kind != "help" and not re.search(r"of at most (?:\d+|so many) class(?:es|,).*?multiples? of [\d,]+ bytes", said) and "refused" not in said:
        yield f"no limit and step in `{said}`"
    if is_sure and kind == "help" and not re.search(r"at most K classes.*?(?:step|multiples of S).*?(?:forced|class 1024)", said):
        yield f"no limit, step and class in `{said}`"
    if kind in ("refused", "empty", "too many") and is_sure and CLAIM.search(said):
        yield f"a claim of what is refused: `{said}`"
    if said == NAMES[1] and kind in ("refused", "bounded") or said == NAMES[0] and kind == "refused":
        yield f"the table of a refused certificate, or of none, is called {said}"
    claimed = list(CLAIM.finditer(said))
    if len(re.findall("none (?:wastes|takes) less (?:on its|over its|over all)", said)) != len(claimed):
        yield f"a claim that can't be read: `{said}`"
    for match in claimed:
        yield from faults_of_claim(match, said, kind, words, place)


def faults_of_claim(match, said, kind, words, place):
    """What is wrong with a claim: of its file, digest, counts and cost."""
    name, digest = re.match(r'"([^"]*)" \(SHA-256 ([0-9a-f]{16})', match[3]).groups()
    path = os.path.join(place, name)
    if not os.path.isfile(path):
        # what bounds a load, loads joined, and what a fleet's rows come to
        is_other = "Tested, and not proved" in said or name == "all loads"
        if not is_other and not ("rows.tsv" in words and re.fullmatch(r"redis 2026-01-0\d", name)):
            yield f"{name} is no file: `{said}`"
        return
    with open(path, "rb") as file:
        data = file.read()
    if re.search(", (?:as merge_profiles|in units|in numbers|of counts that bound|but for)", match[3]):
        return  # of another text, which is said
    if hashlib.sha256(data).hexdigest()[:16] != digest:
        yield f"{name} has another digest: `{said}`"
    given = counts_in(data)
    if numbers_in(data, given) != [int(each.replace(",", "")) for each in match.groups()[5 : COST - 1] if each]:
        yield f"{name} has other counts: `{said}`"
    if read := re.search(r"tune_program .*--read (\S+)", words):
        with open(os.path.join(place, read[1]), "rb") as file:
            original = counts_in(file.read())
        if max(map(most, original.values())) > MOST_COUNT and "of counts divided by" not in match[3]:
            yield f"the counts of {read[1]} are above what a text may have, and those of `{said}` are others"
    limit, step, forced = int(match[1]), int(match[2]) // 16, [int(each) for each in (match[4],) if each]
    if kind != "bounded" and limit <= 3 and len(given) <= 5 and len(data) < 2000 and max(map(most, given.values())) < 100:
        least = lowest(waste if match[5] == "wastes" else footprint, given, limit, step, forced)
        if least != int(match[COST].replace(",", "")):
            yield f"one costs {least}, on {given}: `{said}`"


def most(counts):
    return max(counts) if isinstance(counts, list) else counts


def counts_in(data):
    """What a profile, a history or a timeline counts by size, of a timeline at each moment."""
    lines = [line.split() for line in data.decode().splitlines()]
    if lines and lines[0][0] == "timeline":
        live, columns = {}, []
        for [word] in lines[1:]:
            size = word.lstrip("-")
            live[size] = live.get(size, 0) + (-1 if word.startswith("-") else 1)
            columns.append(dict(live))
        return {int(size): [column.get(size, 0) for column in columns] for size in live if size != "large"}
    if lines and lines[0][0] == "snapshots":
        return {int(size): list(map(int, counts)) for size, *counts in lines[1:] if size != "large"}
    return {int(size): int(count) for size, count in lines if size != "large"}


def numbers_in(data, given):
    """What a claim says that it counts."""
    if data.startswith(b"timeline"):
        return [data.count(b"\n") - 1]
    if data.startswith(b"snapshots"):
        return [int(data.split()[1])]
    return [sum(given.values()), len(given), sum(size * count for size, count in given.items())]


def faults_of_kind(kind, words, found):
    """What a case of this kind must not say."""
    out, error = plain(found["standard output"]), plain(found["standard error"])
    if kind == "too many" and "32 CountOutOfRange" not in error:
        yield "counts that no text can have are taken"
    if kind == "divided" and "divided by" not in out + error:
        yield "the counts are divided without a word"
    if kind == "wide":
        if re.search(r"(?:less|more) than Scudo's", found["standard output"].split("\nRecorded")[0]) or re.search(r"Scudo's \S+(?: Android)? +at least [\d,.]+ KiB +-?[\d,.]+ KiB", out):
            yield "what is known over the run is compared with what is known in part"
        rows = re.findall(r"(?m)^(\S.*?)  +((?:at (?:least|most) )?[\d,.]+ [KM]iB)", found["standard output"])
        if not all(cost.startswith("at ") for _, cost in rows) or len(rows) != 4:
            yield f"of tables that were not counted over the run it is not said how they are known: {rows}"
    if kind == "total" and "stays below" in out:
        yield "a table of the least total is called the one with the lowest worst"


class Sentences(claims_cases.WithProgram):
    @classmethod
    def setup_class(cls):
        super().setup_class()
        cls.place = cls.folder()
        write_inputs(cls.place)
        scripts = os.path.join(ROOT, "scripts")
        made = f"{scripts}/pools --limit 2 --certificate app.pools app.timeline; {scripts}/profile_program --import long.timeline --windows=4 --upper long.upper > long.history"
        subprocess.run(["bash", "-c", made], cwd=cls.place, env={**os.environ, "MTE_TOOL": program_runs.program()}, capture_output=True, check=True)

    def test_rendered(self):
        """Every command over every case."""
        with concurrent.futures.ThreadPoolExecutor(4) as pool:
            all_ = list(pool.map(lambda case: run_case(os.path.join(ROOT, "scripts"), self.place, case), CASES))
        told = 0
        for (kind, words, status, *_), found in zip(CASES, all_):
            expect(f"{words}: its status", found["status"] == str(status), found["status"], found["standard error"], found["standard output"][-300:])
            wrong = list(faults(kind, words, found, self.place))
            expect(f"{kind}: {words}", not wrong, *wrong)
            told += sum(text.count(OPEN) for text in found.values())
        expect(f"{told} sentences come from claims.py", told > 100)

    def test_who(self):
        """What is said of a place in the source, of two fits."""
        from mte_scripts.tables import figures

        text = timeline(60, 9, [24, 40]).encode()
        timed = figures.over_time("timeline", text, True, 3, 1, "run")
        _, second = claims.fit_counts(text.replace(b"40", b"24"), "run", (3, 1, True), claim_words.how("changed"))
        for said in (claims.place_cost(timed.claim, second, "f.c:1", 40, 5, 64, 8), claims.who_input(timed.claim)):
            wrong = [fault for fault in faults_of(said.strip(OPEN + CLOSE), "right", "", self.place) if "no file" not in fault]
            expect(f"who: {said}", said.startswith(OPEN) and not wrong, *wrong)


# ---- documents, the help and the page

TOLD = "README.md include/mte_tool.h include/mte_tool.hpp docs/LIBRARIES.md crates/potential_check/README.md scripts/tests/help.txt".split()
WITHIN = re.compile(r"(?is)no table[^.|;\"]{0,40}?(?:within|of)[^.|;\"]{0,12}?(?:its|the|these)[^.|;\"]{0,12}?(?:limit|options)[^.|;\"]{0,120}?(?:wastes?|takes?|costs?)\b")


def faults_of_document(text):
    """The sentences that say that no table of a limit and step is better, and leave out the class that may be forced."""
    text = " ".join(re.sub(r"\n *(?:\*|//+|#:)? ?", " ", text).split())
    return [match[0] for match in WITHIN.finditer(text) if not re.search(r"forced|forces|largest_class|class 1024", match[0])]


def faults_of_page(text):
    """What the page says of itself that is not so: its script counts and draws."""
    text = " ".join(re.sub(r"<[^>]*>", "", text).split())
    return re.findall(r"(?i)every answer[^.]*from the engines[^.]*\.", text)


class Documents(checks.Part):
    def test_within(self):
        places = [*TOLD, *(f"python/mte_tool/{name}" for name in os.listdir(os.path.join(ROOT, "python/mte_tool")) if name.endswith(".py")),
                  *(f"rust/mte-tool/src/{name}" for name in os.listdir(os.path.join(ROOT, "rust/mte-tool/src")))]
        for name in places:
            with open(os.path.join(ROOT, name), encoding="utf-8") as file:
                wrong = faults_of_document(file.read())
            expect(f"{name} names the class that may be forced", not wrong, *wrong)
        for name, words in claim_words.GIVEN.items():
            expect(f"{name}: {words}", not faults_of_document(words) and ("forced class" in words or not name.startswith("check")))
        old = ("whether it shows that no table within its limit and step wastes less |", "No table within the limit and step that serves the profile wastes less",
               "Check whether a sheet proves that no table within its limit and step wastes less", "/* no table within the sheet's limit and step costs less */",
               "MTE_TOOL_DONE: no table within these options costs less.")
        for text in old:
            expect(f"`{text}` is found", faults_of_document(text))

    def test_page(self):
        with open(os.path.join(ROOT, "web/page.html"), encoding="utf-8") as file:
            expect("what the page says of itself", not faults_of_page(file.read()))
        expect("a page that has all from the engines is found", faults_of_page("<p>Every answer and every picture comes from the engines of mte_tool.</p>"))

    def test_page_words(self):
        """The page says of an engine's line what claims.py says."""
        checks.need("node", "the words of the page")
        given, wanted = [], []
        lines = {"profile": "waste 70000 limit 3 step 2 forced {} sizes 1 requests 2 bytes 32 large 4", "history": "footprint 70000 limit 1 step 1 forced {} snapshots 3",
                 "timeline": "footprint 70000 limit 3 step 2 forced {} events 1"}
        for (kind, line), forced, name in itertools.product(lines.items(), (0, 1024), ("app", 'that serve "all"`')):
            numbers = {word: int(value) for word, value in re.findall(r"([a-z]+) (\d+)", line.format(forced))}
            for verdict in ("optimal", "refused 41 NotServing", "refused 42 WasteWrong", *(["between 70000"] if kind == "timeline" else [])):
                more = {"takes": 80_000} if verdict.startswith("between") else {}
                claim = claims.Claim(kind, name, "0123456789abcdef" * 4, "", verdict, {**numbers, **more}, program_runs.Trust(True, ""), claims._KEY)
                given.append({"kind": kind, "name": name, "digest": claim.digest, "verdict": verdict, "line": f"claim {line.format(forced)}", "more": more})
                wanted.append([claim.state_verdict(), claims.curve(claim, numbers["step"], forced).strip(OPEN + CLOSE)])
        sources = "\n".join(open(os.path.join(ROOT, "web", f"{name}.js"), encoding="utf-8").read() for name in ("formats", "words", "claims"))
        program = f"""const data = {json.dumps({"claims": claim_words.TEMPLATES})}; {sources.replace('"use strict";', "")}
            console.log(JSON.stringify({json.dumps(given)}.map((it) => {{
              const numbers = {{ ...numbersOf(it.line), ...it.more }};
              return [says({{ ...it, numbers }}), curveWords(it, numbers.step, numbers.forced)];
            }})))"""
        done = subprocess.run(["node", "-e", program], capture_output=True, text=True)
        expect("the page's words are read", done.returncode == 0, done.stderr)
        escape = lambda text: text.replace("\\x22", "\\u{22}").replace("\\x60", "\\u{60}")  # as JavaScript has a character by its number
        for it, got, want in zip(given, json.loads(done.stdout or "[]"), wanted):
            expect(f"the page on {it}", got == list(map(escape, want)), got, want)


# ---- faults that are put in

# a file of the scripts, what is replaced there and by what, and the case that has to find it
PLANTED = {
    "counts are divided silently": ("tables/tuning_options.py", "count_texts.divisor_of(found) if self.scale else 1", "count_texts.divisor_of(found)", "tune_program --output T9"),
    "what is divided is not said": ("claim_words.py", '"how.divided": ", of counts divided by {divisor} and rounded up"', '"how.divided": ""', "tune_program --limit 3 --scale"),
    "an interval without its limit": ("claim_words.py", "Over {over}, of the tables of {limit}, that serve it{having}, none takes less than", "Over {over} no table takes less than",
                                      "tune_program --limit 2 --step 8 --output T13"),
    "an interval that a script words itself": ("tables/figures.py", "return list(claims.interval(timed.claim, timed.interval.high, timed.interval.events))",
                                               'return ["Over the whole run no table takes less than 26.8 MiB."]', "tune_program --limit 2 --step 8 --output T13"),
    "a lower bound beside an upper one": ("tables/figures.py", "is_alike = table.is_known == self.first.is_known", "is_alike = True", "tune_program --limit 2 --step 8 --output T13"),
    "a bound that is shown as what a table takes": ("tables/summary.py", 'f"{table.is_known} {kibibytes(table.footprint)}".lstrip()', "kibibytes(table.footprint)",
                                                    "tune_program --limit 2 --step 8 --output T13"),
    "a refused table that is called least": ("claims.py", "'table' if self.holds else 'other'", "'table'", "report other.profile"),
    "the worst of a table by its total": ("fleet/common_table.py", "said = total.sentences(name) if total else", "said =", "fleet_table --limit 3 --by total"),
    "a worst that a script words itself": ("fleet/common_table.py", "said = total.sentences(name) if total else",
                                           'said = "none stays below 0.00% on all of them. This is the worst of this table, so none has a lower one." if total else',
                                           "fleet_table --limit 3 --by total"),
    "a name that is no text": ("claim_words.py", "    return f'\"{plain}\"'", "    return name", "check_sheet app_profile.sheet 'that"),
    "a digest of something else": ("claims.py", "hashlib.sha256(counts).hexdigest(), how, verdict", "hashlib.sha256(counts + b'x').hexdigest(), how, verdict", "check_sheet app_profile.sheet app"),
    "a cost that nobody checked": ("claims.py", "tables=tables, cost=byte_text(self.cost)", "tables=tables, cost=byte_text(self.cost - 1)", "check_sheet app_profile.sheet app"),
    "a class that is left out": ("claims.py", '"having": having_words(self.numbers["forced"])', '"having": ""', "check_sheet --step 2 forced.sheet"),
    "a bare command": ("tables/check_sheet.py", "return f\"{shell_words.script_word('check_sheet')}{step} {shell_words.path_word(sheet)} {shell_words.path_word(counts)}\"",
                       "return f\"cat {sheet} {counts} | mte_tool check\"", "tune_program --limit 3 --no-largest --output T1"),
    "a help without a limit": ("claim_words.py", "of the tables of at most K classes, all\\n\"\n    \"multiples of the fit's step, that serve them, none takes less", "no table takes less", "pools --help"),
}


class Plants(claims_cases.WithProgram):
    def test_planted(self):
        """Each fault is found by the case that it is of."""
        place = self.folder()
        scripts = os.path.join(place, "scripts")
        shutil.copytree(os.path.join(ROOT, "scripts"), scripts, ignore=shutil.ignore_patterns("tests", "__pycache__", "gate", "faults"))
        for name in ("examples", "crates.txt"):
            os.symlink(os.path.join(ROOT, name), os.path.join(place, name))
        write_inputs(place)
        made = f"{scripts}/profile_program --import long.timeline --windows=4 --upper long.upper > long.history"
        subprocess.run(["bash", "-c", made], cwd=place, env={**os.environ, "MTE_TOOL": program_runs.program()}, capture_output=True, check=True)
        for what, (file, good, bad, begin) in PLANTED.items():
            case = next(case for case in CASES if case[1].startswith(begin))
            path = os.path.join(scripts, "mte_scripts", file)
            with open(path, encoding="utf-8") as opened:
                text = opened.read()
            if not expect(f"{what}: the text stands once in {file}", text.count(good) == 1, text.count(good)):
                continue
            self.clean(place)
            expect(f"{what}: nothing is found before",
                   not list(faults(*case[:2], run_case(scripts, place, case), place)))
            self.clean(place)
            write(os.path.dirname(path), os.path.basename(path), text.replace(good, bad))
            found = run_case(scripts, place, case)
            wrong = list(faults(*case[:2], found, place))
            write(os.path.dirname(path), os.path.basename(path), text)
            expect(f"{what}: it is found", wrong and "Traceback" not in found["standard error"] and "not foreseen" not in found["standard error"], found)

    def clean(self, place):
        """Without what the cases have made."""
        for name in os.listdir(place):
            if re.fullmatch(r"[TC]\d+", name):
                shutil.rmtree(os.path.join(place, name))
