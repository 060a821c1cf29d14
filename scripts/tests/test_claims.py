"""Tests of what is said of tables. First: no string that a script, the page, the library or an example prints has the words proved, optimal,
best, least or `no table`, but those of scripts/mte_scripts/claim_words.py. Then: each sentence that says that no other table is better is read back from
what is printed, and compared with all tables of small cases, by the definitions of waste and footprint; with a class forced and without,
for each step. Then: nothing is called proved where the program is not the one of its manifest. What is said of a fleet is in the
part `fleet_claims`, and of pools in `pools`.

It runs over the built program, or over the plain one where that is not built, or over the one that MTE_TOOL names. A line for each failure;
the exit status is 1 if there is one."""

import ast
import contextlib
import hashlib
import html
import html.parser
import itertools
import os
import random
import re
import shutil
import subprocess
from unittest import mock

import claims_cases
from checks import expect
from claims_cases import CASES, CLAIM, COST, footprint, history_text, lowest, run, small, small_timeline, waste
from mte_scripts import claim_words, claims, manifest, program_runs
from mte_scripts.entry_point import Refusal
from mte_scripts.tables import figures

ROOT = os.path.dirname(os.path.dirname(os.path.dirname(os.path.realpath(__file__))))


# ---- the words

SAID = re.compile(r"(?<![$@%\w.-])(proved|optimal|best|least|no table|none (?:wastes|takes|stays|costs|is better|has a lower))(?![\w(])", re.I)
# the checker's word itself, what says that something is not so, and other meanings
ELSE = ["`optimal`", "at least", "nothing is proved", "not proved", "not called proved", "out/proved", "class of least room"]
# sentences on a program's proof, which a build makes, and on other things than tables
ELSEWHERE = {
    "scripts/mte_scripts/gate/written_parts.py": ["least"],  # a field of the option table that it writes
    "scripts/mte_tool": ["has to be proved and built", "= 'proofs proved'", "the proved program"],
    "scripts/mte_scripts/engines.py": ["proved"],  # who has proved what answers
    "scripts/mte_scripts/steps.py": ["who has proved it"],
    "scripts/mte_scripts/builds/modules.py": ["proved"],
    "scripts/mte_scripts/manifest.py": ["proofs (proved|un", "proved"],
    "scripts/mte_scripts/packaging/packaging.py": ["is proved to be safe, to return and to meet its contract", "proved"],
    "scripts/mte_scripts/packaging/provenance.py": ["proved"],
    "scripts/mte_scripts/packaging/release.py": ["the program or the library is not known\nto be proved", "What was proved", "is not known to be proved",
                                                 "what was proved and tested"],
    "scripts/mte_scripts/builds/library.py": ["of which sources it was proved and built", "proved"],
    "scripts/mte_scripts/packaging/package.py": ["proved"],
    "scripts/mte_scripts/builds/show_manifest.py": ["whether it is proved", "proofs proved", "and is proved"],
    "scripts/mte_scripts/faults/shares.py": ["least"],  # the least probability, as --json has it
    "scripts/mte_scripts/gate/statements.py": ["The least waste, checked by anybody", "least-waste"],
    "scripts/mte_scripts/gate/statement.py": ["least-waste"],
    "scripts/mte_scripts/gate/bench.py": ["the least time of N runs", "the least processor time of a run"],
    "scripts/mte_scripts/gate/plants.py": ["THROUGH a wrong body that is proved"],
    "scripts/mte_scripts/gate/plant_rounds.py": ["proved"],  # what a check prints of a function
    "scripts/mte_scripts/tables/scudo_map.py": ["the least that holds it"],
    "library/claims.c": ["optimal\\n"],  # the checker's word with its newline, which this reads
    "scripts/mte_scripts/builds/web_page.py": ["They are proved as MIR", "proved"],
    "web/page.html": ["They are proved as MIR", "are tested and not proved"],
}


def python_strings(text):
    """All strings of a Python text but its docstrings; the module's is one of them where it is a help."""
    tree = ast.parse(text)
    documented = (ast.ClassDef, ast.FunctionDef) if "Words(__doc__" in text else (ast.Module, ast.ClassDef, ast.FunctionDef)
    docstrings = {id(node.body[0].value) for node in ast.walk(tree) if isinstance(node, documented) and isinstance(node.body[0], ast.Expr)}
    for node in ast.walk(tree):
        if isinstance(node, ast.Constant) and isinstance(node.value, str) and id(node) not in docstrings:
            yield node.value


def quoted_strings(text):
    """The strings of a text in a language of C's kind, JavaScript's too."""
    found = re.finditer(r"""/\*.*?\*/|//[^\n]*|("(?:\\.|[^"\\\n])*"|'(?:\\.|[^'\\\n])*'|`(?:\\.|[^`\\])*`)""", text, re.S)
    return [re.sub(r"\$\{[^}]*\}", "..", match[1][1:-1]) for match in found if match[1]]


def strip_comments(text):
    """The lines of a shell's, or another, text without what is after a #."""
    return [re.sub(r"(^|\s)#(?!\{).*", "", line) for line in text.splitlines()]


class PageText(html.parser.HTMLParser):
    """The text of a page, and the attributes that a reader sees."""

    def __init__(self, text):
        super().__init__()
        self.found, self.tag = [], ""
        self.feed(text)

    def handle_starttag(self, tag, attributes):
        self.tag = tag
        self.found += [value for name, value in attributes if name in ("title", "alt", "aria-label", "placeholder") and value]

    def handle_data(self, data):
        if self.tag not in ("style", "script"):
            self.found.append(data)


def strings(path, text):
    """What a file of this name may print."""
    first = text.split("\n", 1)[0]
    if path.endswith(".py") or "python3" in first:
        return python_strings(text)
    if path.endswith((".c", ".h", ".cpp", ".hpp", ".rs", ".go", ".js")):
        return quoted_strings(text)
    if path.endswith(".html"):
        return PageText(text).found
    return strip_comments(text)


PLACES = ("scripts", "web", "library", "include", "examples")


def test_words():
    listed = subprocess.run(["git", "-C", ROOT, "ls-files", *PLACES], capture_output=True, text=True)
    paths = listed.stdout.split("\n")[:-1]
    data = (".profile", ".history", ".trace", ".input", ".classes", ".md", ".sql", ".css", ".png", ".svg", ".tsv", ".xz")
    paths = [path for path in paths if not path.startswith("scripts/tests/") and path != "scripts/mte_scripts/claim_words.py" and not path.endswith(data)]
    expect(f"git lists {len(paths)} files: {listed.stderr}", len(paths) > 50)
    for path in paths:
        with open(os.path.join(ROOT, path), encoding="utf-8") as file:
            for text in strings(path, file.read()):
                rest = re.sub(r"\s+", " ", text)
                for phrase in ELSE + ELSEWHERE.get(path, []):
                    rest = re.sub(re.escape(phrase), " ", rest, flags=re.I)
                found = SAID.search(rest)
                if found and text != "optimal":
                    expect(f"{path} prints `{found[0]}` in `{text.strip()[max(0, found.start() - 60) : found.end() + 40]}`, and not by claim_words.py", False)
            expect(path, True)


# ---- the sentences, against all tables

CAPTION = re.compile(
    r"the line is the least (waste on|footprint over|footprint at some moments of).*? the tables of at most so many classes, "
    r"all multiples of ([\d,]+) bytes, that serve it(?: and have class (\d+))?[.;]"
)


def words_of(text):
    """A text as one line, without tags and what stands for other characters."""
    return " ".join(html.unescape(re.sub(r"<[^>]*>", "", text)).split())


def compare(text, profile, history, what):
    """Each claim in a text, with all tables that it speaks of. What each claims: the kind, the classes that it says are forced, and the cost."""
    found = []
    text = words_of(text)
    for match in CLAIM.finditer(text):
        limit, step = int(match[1]), int(match[2].replace(",", "")) // 16
        forced = [int(each) for each in re.findall(r"\d+", match[4] or "")]
        cost, given = (waste, profile) if match[5] == "wastes" else (footprint, history)
        least = lowest(cost, given, limit, step, forced)
        expect(f"{what}: `{match[0]}`, but one costs {least}, on {given}", least == int(match[COST].replace(",", "")))
        expect(f"{what}: `{match[0]}`, and not of {given}", is_counted(match, given))
        found.append((match[5], forced, least))
    expect(f"{what}: a sentence is not read back: {text}", len(found) == len(re.findall("none (?:wastes|takes)", text)))
    return found


def is_counted(match, given):
    """Whether what a claim says that it counts is what is given: of a history its snapshots, of a timeline its events, which all have a moment."""
    numbers = [int(each.replace(",", "")) for each in match.groups()[5 : COST - 1] if each]
    if match[5] == "wastes":
        counted = {size: times for size, times in given.items() if size != "large"}
        return numbers == [sum(counted.values()), len(counted), sum(size * times for size, times in counted.items())]
    return numbers == [len(next(iter(given.values())))]


def profile_text(profile):
    return "".join(f"{size} {times}\n" for size, times in sorted(profile.items()))


def ask_program(words, given):
    """What the program answers."""
    return figures.run(words, given)[1] + "\n"


def try_figures():
    """What tune_program and report make of small profiles, histories and timelines, with class 1024 forced and without."""
    chosen, traps = random.Random(7), 0
    for kind, (limit, step, with_forced) in itertools.product(("history", "timeline"), CASES):
        for objective in ("waste", "footprint"):
            profile = small(chosen)
            if kind == "timeline":
                text, history = small_timeline(chosen)
            else:
                history = small(chosen, chosen.randrange(1, 4))
                text = history_text(history)
            if not any(profile):
                continue
            sheet = ask_program(["tune", *figures.options(limit, step, with_forced)], profile_text(profile))
            timed = figures.over_time(kind, text.encode(), with_forced, limit, step)
            found = figures.Figures(profile, sheet, [], timed, objective)
            what = f"{kind}, limit {limit}, step {step}, {'forced' if with_forced else 'not forced'}"
            told = compare(" ".join(found.state_findings()), profile, history, what)
            order = ["takes", "wastes"][:: 1 if objective == "footprint" else -1]
            expect(f"{what}: not two claims: {found.state_findings()}", [kind for kind, *_ in told] == order)
            expect(f"{what}: {found.state_refusals()}", not found.state_refusals())
            expect(f"{what}: the first table is not of the {objective}", (found.first is found.best) == (objective == "waste"))
            taken, wasted = told[:: 1 if objective == "footprint" else -1]
            for _, forced, _ in told:
                expect(f"{what}: {forced} is said to be forced for {profile}, {history}", forced == [1024] * with_forced)
            traps += wasted[2] > lowest(waste, profile, limit, step) or taken[2] > lowest(footprint, history, limit, step)
            cost, given, forced = (waste, profile, wasted[1]) if objective == "waste" else (footprint, history, taken[1])
            for classes, least in enumerate(found.least[:limit], 1):
                wanted = lowest(cost, given, classes, step, forced)
                # of a timeline the moments of its fit alone
                held = least == wanted or kind == "timeline" and objective == "footprint" and classes < limit and least < wanted
                expect(f"{what}: the curve at {classes} is {least}, and not {wanted}, on {given}", held)
            if objective == "footprint":
                expect(f"{what}: the classes take {list(found.classes())}, not {taken[2]}", sum(cost for *_, cost in found.classes()) == taken[2])
    expect(f"only {traps} cases in which a forced class costs something", traps > 10)


def stand_in_program(status, out, trust=program_runs.Trust(True, ""), error=""):
    """In place of the program: one that answers this, whatever it is asked; and whether it is proved."""
    stack = contextlib.ExitStack()
    stack.enter_context(mock.patch.object(program_runs, "mte_tool", lambda words, *given: (status, out.encode(), error)))
    stack.enter_context(mock.patch.object(program_runs, "trust", lambda: trust))
    return stack


@contextlib.contextmanager
def refuses(what, kind):
    """Expects that what is done here is refused so."""
    try:
        yield
        expect(f"{what} is taken", False)
    except kind:
        expect(what, True)


CERTIFICATES = {
    "profile": ("classes 2\nlimit 1\nwaste 0\nrow 0\n", b"16 1\n", "claim waste 70000 limit 3 step 2 forced {} sizes 1 requests 2 bytes 32 large {}"),
    "history": ("classes 2\nlimit 1\nfootprint 0\nrow 0\n", b"snapshots 1\n16 1\n", "claim footprint 70000 limit 3 step 2 forced {} snapshots 1"),
    "timeline": ("classes 2\nlimit 1\nfootprint 0\nrow 0\nmoments 1\n", b"timeline\n16\n", "claim footprint 70000 limit 3 step 2 forced {} events 1"),
}
TRUSTS = (program_runs.Trust(True, ""), program_runs.Trust(False, "it was not tried"))


def test_templates():
    """They are plain texts, of which a sentence leaves no place open; and what is said follows from what the program says alone."""
    expect("a template is no text", all(isinstance(text, str) for text in claim_words.TEMPLATES.values()))
    for (kind, (certificate, counts, line)), trust, forced in itertools.product(CERTIFICATES.items(), TRUSTS, (0, 1024)):
        with stand_in_program(0, f"optimal\n{line.format(forced, 4)}\n", trust):
            claim = claims.check_certificate(certificate, counts, "app", claim_words.divisor_words(1 + forced))
        said = claim.sentence()
        match = CLAIM.search(said)
        expect(f"{kind}: a claim: {said}", match and said.startswith("Proved: ") == trust.is_proved and "{" not in said)
        digest = hashlib.sha256(counts).hexdigest()
        expect(f"{kind}: its digest: {said}", claim.digest == digest and f'"app" (SHA-256 {digest[:16]}' in said)
        expect(f"{kind}: its division: {said}", ("of counts divided by 1,025 and rounded up" in said) == bool(forced))
        expect(f"{kind}: its class: {said}", match[4] == (str(forced) if forced else None) and match[1] == "3" and match[2] == "32")
        expect(f"{kind}: its large requests: {said}", ("without 4 large ones" in said) == (kind == "profile"))
        others = [claims.bound(claim, "load", 7, False), claims.worst(claim, '"load"', 1.0, 2.0, True), claims.curve(claim, 2, forced),
                  *claims.interval(claim, 80_000, 5), claims.pools(claim, ["run"], kind == "history", (8, 4), 9), claims.who_input(claim),
                  claims.block_sizes(claim, (kind, "run", digest), 9, dict.fromkeys("allocator words unit first top kept".split(), "4")),
                  claims.place_cost(claim, claim, "f", 16, 1, 32, 4), claims.regret(claim, "load", "the table", 5, 1.0)]
        expect(f"{kind}: a place is left open", not any("{" in each for each in others), *others)
        proved = [each for each in others if "roved" in each and not re.search("[Tt]ested,? and not proved|tested and not proved", each)]
        expect(f"{kind}: what follows from it is not called proved", not proved, *proved)


def test_refusals():
    """What is no claim: a refusal of the checker, with its meaning; and another program, which does not say what it showed."""
    for (kind, (certificate, counts, line)), trust in itertools.product(CERTIFICATES.items(), TRUSTS):
        for verdict in (*(f"refused {code} Name" for code in (*range(39, 48), 49, 53)), "refused 12 Other", "nonsense", ""):
            with stand_in_program(1, f"{verdict}\n", trust):
                claim = claims.check_certificate(certificate, counts, "app")
            said = claim.sentence()
            expect(f"{verdict} gives `{said}`", "{" not in said and '"app"' in said and "roved" not in said and not CLAIM.search(said))
            expect(f"{verdict} is told", f"`{verdict}`" in said and not claim.holds and "least" not in claim.table() and "best" not in claim.table())
            expect(f"{verdict} and who", claims.who_input(claim) == ""
                   and "nothing is said" in claims.place_cost(claim, claim, "f", 16, 1, 32, 4))
        for status, out in ((0, "optimal\n"), (1, f"refused 42 WasteWrong\n{line}\n"), (2, ""), (3, ""), (139, "optimal\n")):
            what = f"{status} and {out!r}"
            with stand_in_program(status, out, trust, "error 48 BadSheet line 1"), refuses(what, Refusal):
                claims.check_certificate(certificate, counts, "app")
    with refuses("a claim that nobody checked", TypeError):
        claims.Claim("profile", "app", "", "", "optimal", {}, program_runs.Trust(True, ""))
    with stand_in_program(0, f"optimal\n{CERTIFICATES['profile'][2].format(0, 0)}\n"):
        claim = claims.check_certificate(*CERTIFICATES["profile"][:2], "app")
    with refuses("a claim that is changed", AttributeError):
        claim.verdict = "refused"
    for name in ("that serve every profile", 'a", none', "a`b", "a\nb", "a\\", "\udcff\u202e"):
        said = claim_words.quote_name(name)
        expect(f"{name!r} is quoted as {said}", said.isprintable() and said.count('"') == 2 and "`" not in said)


def test_between():
    """A timeline whose `fit` found no certificate: what is said of the bound."""
    for forced, trust in itertools.product((False, True), TRUSTS):
        with stand_in_program(1, "classes 4 1024\nfootprint 80000\nnot shown least: no table takes less than 70000\n",
                              trust):
            answer, claim = claims.fit_counts(b"timeline\n16\n", "app.timeline", (3, 2, forced))
        said = claim.sentence()
        found = CLAIM.search(said)
        expect(f"a bound: {said}", claim.is_bound and not claim.holds and answer.startswith("classes 4 1024\n"))
        expect(f"a bound: {said}", found and found[COST] == "70,000" and found[1] == "3" and found[4] == ("1024" if forced else None))
        begin = "Proved: `fit` found no certificate: " if trust.is_proved else "Nothing is proved, since it was not tried. "
        expect(f"a bound: {said}", said.startswith(begin) and ("80,000 bytes over all moments" in said) == trust.is_proved)


def read(*path):
    with open(os.path.join(*path), encoding="utf-8") as file:
        return file.read()


def write(text, *path):
    with open(os.path.join(*path), "w", encoding="utf-8") as file:
        file.write(text)
    return os.path.join(*path)


def try_scripts(place):
    """What tune_program, report and check_sheet print, and what is in the folder."""
    chosen = random.Random(11)
    scripts = os.path.join(ROOT, "scripts")
    for at, (limit, step, with_forced) in enumerate([(2, 1, True), (3, 1, False), (2, 8, True), (1, 8, False), (3, 2, True), (3, 4, False)]):
        options = ["--limit", str(limit), "--step", str(step), "--largest" if with_forced else "--no-largest"]
        profile, history = {24: 3, **small(chosen)}, {40: [2, 1], **small(chosen, 2)}
        if limit == 1:  # a map of Scudo wants a class below 1024
            profile, history = {24: 3, 40: 1}, {40: [2, 1]}
        timeline, of_timeline = small_timeline(chosen) if limit > 1 else ("timeline\n40\n40\n-40\n", {40: [1, 2, 1]})
        for kind, text in (("profile", profile_text(profile)), ("history", history_text(history)), ("timeline", timeline)):
            folder, given = os.path.join(place, f"{kind} {at}"), write(text, place, f"app{at}.{kind}")
            done = run(f"{scripts}/tune_program", *options, "--output", folder, "--read", given)
            what = f"tune_program {options} of a {kind}"
            expect(f"{what}: {done.returncode}: {done.stderr}", done.returncode == 0)
            counted = dict(map(int, line.split()) for line in read(folder, "program.profile").splitlines())
            wanted, blocks = ["takes"] * (kind != "profile") + ["wastes"], of_timeline if kind == "timeline" else history
            for name in ("summary.txt", "claims.txt", "report.html"):
                told = compare(read(folder, name), counted, blocks, f"{what}: {name}")
                expect(f"{what}: {name} has the claims {told}", [each[0] for each in told] == (wanted[:1] if name == "summary.txt" else wanted))
                for _, forced, _ in told:
                    expect(f"{what}: {name} says that {forced} are forced", forced == [1024] * with_forced)
            curve(read(folder, "report.html"), counted, blocks, limit, what)
            done = run(f"{scripts}/check_sheet", f"{folder}/tuned.sheet", f"{folder}/program.profile", "--step", str(step))
            expect(f"check_sheet: {done.stdout} {done.stderr}", compare(done.stdout, counted, None, "check_sheet") and done.returncode == 0)
            if kind == "history":
                done = run(f"{scripts}/check_sheet", f"{folder}/fitted.fit", f"{folder}/program.history", "--step", str(step))
                rows = {int(size): list(map(int, counts)) for size, *counts in map(str.split, read(folder, "program.history").splitlines()[1:])}
                expect(f"check_sheet: {done.stdout} {done.stderr}", compare(done.stdout, None, rows, "check_sheet"))
            done = run(f"{scripts}/report", f"{folder}/program.profile", f"{folder}/tuned.sheet")
            expect(f"report: {done.returncode} {done.stderr}", compare(done.stdout, counted, None, "report") and done.returncode == 0)
            curve(done.stdout, counted, None, limit, "report")


def curve(page, profile, history, limit, what):
    """The line of the picture, by its caption."""
    caption = CAPTION.search(words_of(page))
    expect(f"{what}: the picture's caption is not read back", caption)
    if caption:
        step, forced = int(caption[2].replace(",", "")) // 16, [int(caption[3])] if caption[3] else []
        cost, given = (waste, profile) if caption[1] == "waste on" else (footprint, history)
        for classes in range(1, limit + 1):
            shown = re.search(rf'<tr data-classes="{classes}">.*?data-value="(\d+)"', page)
            least = lowest(cost, given, classes, step, forced)
            held = int(shown[1]) == least or caption[1].endswith("moments of") and classes < limit and int(shown[1]) < least
            expect(f"{what}: the line of {classes} classes is at {shown[1]}, not {least}", held)


# ---- what is called proved

def test_verdict():
    """The line of rt's verdict in what it printed: of `rt ci` with many crates, and of a run of one."""
    of = "logic=proved functions={} sum=1"
    log = f"== one\n{of.format(1)}\nrt: one proved\nrt: two is kept: an earlier run proved it\n== mte_tool\nfn main: proved\n{of.format(3)}\n" \
          f"linked target=x\nrt: mte_tool proved\n== last\n{of.format(4)}\nrt: last proved\n"
    for crate, wanted in (("one", of.format(1)), ("two", ""), ("mte_tool", of.format(3)), ("last", of.format(4)), ("none", "")):
        expect(f"the verdict on {crate}", manifest.verdict_in(log, crate) == wanted, manifest.verdict_in(log, crate))
    expect("the verdict of a run of one crate", manifest.verdict_in(f"compiling\n{of.format(5)}\nmte_tool 1.0.0\n", "mte_tool") == of.format(5))
    expect("no verdict", manifest.verdict_in("rt: mte_tool NOT PROVED\n", "mte_tool") == "")


def try_manifest(place):
    """In a package's folder: what is called proved where the program is that of its manifest, and where it is not."""
    package = os.path.join(place, "package")
    shutil.copytree(os.path.join(ROOT, "scripts"), f"{package}/scripts", ignore=shutil.ignore_patterns("tests"))
    shutil.copytree(os.path.join(ROOT, "examples"), f"{package}/examples")
    program = f"{package}/mte_tool"
    shutil.copy(program_runs.program(), program)
    good = manifest.Manifest(manifest.hash_of(program), "0" * 64, "kit-of-the-test logic 1", "proved")
    spoiled = f"{'1' * 64}"
    environment = {name: value for name, value in os.environ.items() if name != "MTE_TOOL"}
    sheet, counts = f"{place}/app.sheet", write("17 3\n40 1\n", place, "app.profile")
    write(ask_program(["tune", "--limit", "2"], "17 3\n40 1\n"), sheet)
    cases = {"": good, "the program has no manifest": None,
             "the program is not the one of its manifest": good._replace(program=spoiled),
             "its manifest says that the program was not proved": good._replace(proofs="unproved"),
             "MTE_TOOL names another program": good}
    for at, (why, each) in enumerate(cases.items()):
        if each is None:
            os.remove(f"{program}.manifest")
        else:
            write(manifest.text_of(each), f"{program}.manifest")
        env = {**environment, "MTE_TOOL": program} if why.startswith("MTE_TOOL") else environment
        says_what_is_proved(counts, place, at, env, package, why, sheet, environment, each)
    write(manifest.text_of(good._replace(verdict="logic=proved functions=3")), f"{program}.manifest")
    expect("a manifest has its verdict", manifest.read(program) == good._replace(verdict="logic=proved functions=3"), manifest.read(program))
    broken = write("program 1\n", f"{program}.manifest")
    expect(f"{broken} is taken as a manifest", manifest.read(program) is None)

    sees_sources(place, program, good)


def says_what_is_proved(counts, place, at, env, package, why, sheet, environment, each):
    """What the scripts of the package say where this program is called proved, or is not for a reason."""
    words = ["--all", "--output", f"{place}/proved {at}", "--read", counts]
    done = run(f"{package}/scripts/tune_program", *words, env=env)
    said = " ".join(done.stdout.split()) + read(f"{place}/proved {at}", "claims.txt") + words_of(read(f"{place}/proved {at}", "report.html"))
    expect(f"tune_program, {why}: {done.returncode} {done.stderr}", done.returncode == 0)
    expect(f"tune_program, {why}: {said[:900]}", ("Proved" in said) == (not why) and said.count(f"Nothing is proved, since {why}") == 3 * bool(why))
    picture = read(f"{place}/proved {at}", "waste.svg")
    expect(f"waste.svg, {why}: it does not say so", ("not proved" in picture) == bool(why) and why in picture)
    done = run(f"{package}/scripts/check_sheet", sheet, counts, env=env)
    expect(f"check_sheet, {why}: {done.stdout} {done.stderr}", done.returncode == 0 and done.stdout.split("\n")[-2].startswith("optimal"))
    expect(f"check_sheet, {why}: {done.stdout}", ("nothing is proved" in done.stdout) == bool(why) and why in done.stdout)
    expect(f"the launcher, {why}: {done.stderr}", ("nothing is proved" in done.stderr) == bool(why))
    if not why.startswith("MTE_TOOL"):
        done = run(f"{package}/scripts/manifest", env=environment)
        expect(f"manifest, {why}: {done.returncode} {done.stdout}", (done.returncode == 0) == (not why) and why in done.stdout)
        expect(f"manifest, {why}: {done.stdout}", each is None or done.stdout.startswith(manifest.text_of(each)))


def sees_sources(place, program, good):
    """The sources: a change, a new file and a lost one are each seen."""
    for folder in ("crates/one/src", "crates/one/specs", "crates/one/out"):
        os.makedirs(os.path.join(place, "repo", folder))
    write("one:\n", place, "repo", "crates.txt")
    source = write("fn one() {}\n", place, "repo/crates/one/src/lib.rt")
    before = manifest.sources_of(f"{place}/repo")
    shutil.copy(program, f"{place}/repo/mte_tool")
    write(manifest.text_of(good._replace(sources=before)), f"{place}/repo/mte_tool.manifest")
    why = lambda: manifest.why_unproved(f"{place}/repo/mte_tool", f"{place}/repo")
    write("nothing", place, "repo/crates/one/out/kept")
    expect(f"the manifest of unchanged sources does not hold: {why()}", why() == "")
    write("fn two() {}\n", source)
    expect("a changed source is not seen", "sources are not those" in why())
    write("fn one() {}\n", source)
    more = write("", place, "repo/crates/one/specs/More.antt")
    expect("a new source is not seen", "sources are not those" in why())
    os.remove(more)
    expect("the manifest does not hold again", why() == "")
    os.symlink("nowhere", more)
    expect("a source that can't be read is taken as none", "can't be read" in why())
    os.remove(more)
    os.remove(source)
    expect("a lost source is not seen", "sources are not those" in why())


class Tables(claims_cases.WithProgram):
    """The sentences against all tables of small cases."""

    def test_figures(self):
        try_figures()

    def test_scripts(self):
        try_scripts(self.folder())

    def test_manifest(self):
        try_manifest(self.folder())
