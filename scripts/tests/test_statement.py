"""Tests of scripts/statement. Each name that a definition or a public contract of the crates cites is resolved, and a name that nothing
defines is refused, in copies with one planted fault. Each command reaches its own headline, and what it reaches is read from the top down.
The counts are counted again from what is printed, and are those of README.md; so are the names of commands and promises. PROOFS.md has each
long definition, with laws that lead to it and cases that there are. The page is well formed, its links lead somewhere, and it runs nothing."""

import functools
import html.parser
import itertools
import os
import pathlib
import re
import shutil
import subprocess
from collections.abc import Callable, Iterator

import pytest
from checks import expect
from mte_scripts.gate import statement_page, statements
from mte_scripts.gate.crate_texts import CRATES, name_of, rust_files, spec_files, text_of
from mte_scripts.places import ROOT

# what each command's list has to have: what its answer is, and the words of its input or output
HEADLINES = {
    "score": "score_of score_answers waste_of table_of_line",
    "tune": "IsTuned IsTunedBy tune_answers IsCanonicalBy AreValidPotentials sheet_text",
    "check": "IsChecked IsJudged check_answers IsVerdict verdict_text",
    "footprint": "measured MeasuresCounts footprint_of",
    "fit": "IsFitOf FitAnswers fit_text",
    "check-fit": "IsFitChecked IsCheckedOver check_fit_answers",
    "peaks": "peaks_answers PeaksCounts most_blocks AreFirsts live_bytes most_freed",
    "profile": "profiled ProfileAnswers profile_of_events profile_text",
    "replay": "ReplayAnswers report_on report_lines totals_text malloc_step",
    "run": "IsTunedRun RunAnswers IsTableFor IsTuned AccessesAreAnswered rounding_loss report_lines Event Config MOST_CLASSES ◌>>=◌",
    "least-waste": "IsTuned IsChecked IsFitOf IsFitChecked",
    "headline": "IsTunedRun",
    "hardening": "BookkeepingOutOfReach InsideSucceeds NeighboursFault FreedFaults ReuseIsDelayed IsStored",
    "bounded": "tune_answers FitEitherAnswers FitAnswers IsRound RunAnswers most_calls calls_of span_count AreRoundCosts",
    "program": "HasRun AnswersAll AnswersInput Mean IsTunedRun IsChecked IsFitOf Call End",
}


def run(*words: str, root: str = ROOT) -> "tuple[int, str, str]":
    done = subprocess.run([os.path.join(root, "scripts/statement"), *words], capture_output=True, text=True, stdin=subprocess.DEVNULL)
    return done.returncode, done.stdout, done.stderr


# ---- names


def each_name() -> "Iterator[Callable[[], statements.Definition]]":
    """What reads each definition of the crates, and the contract of each public function."""
    for file in spec_files():
        name = f"Rattle.{'.'.join(file.relative_to(CRATES).with_suffix('').parts)}"
        yield from (functools.partial(statements.definition, statements.Key(name, each)) for each in statements.module(name).blocks)
    for file in rust_files():
        names = re.findall(r"(?m)^pub fn (\w+)", text_of(file))
        yield from (functools.partial(statements.function, name_of(file).split("/")[0], each) for each in names)


def test_definitions() -> None:
    """Each definition of the crates, and the contract of each public function, cites names that are defined."""
    every, wrong = [*each_name()], []
    for definition in every:
        try:
            definition()
        except statements.UnresolvedName as error:
            wrong.append(str(error))
    expect("what definitions and contracts cite", not wrong, *wrong)
    expect("there are many definitions and public functions", len(every) > 1200, len(every))


# a file of the crates, what is changed in it, and the name that is then told
PLANTED = (
    ("mte_engine/specs/Run.antt", "legal : IsLegalTable step", "legal : IsLawfulTable step", "IsLawfulTable"),
    ("mte_engine/specs/Run.antt", "use Rattle.class_tuner.specs.Tuned.{IsTuned}\n", "", "IsTuned"),
    ("class_tuner/specs/Tuned.antt", "pub record IsTunedOver ", "pub record IsTunedOverNow ", "IsTunedOver"),
    ("class_table/src/table.rt", "const MOST_CLASSES", "const MOST_OF_ALL", "MOST_CLASSES"),
    ("trace_event/src/event.rt", "pub enum Event", "pub enum Happening", "Event"),
    ("mte_engine/src/running.rt", "requires { AreValid Run options }", "requires { AreSetUp Run options }", "AreSetUp"),
    ("mte_engine/src/running.rt", "pub fn run<", "pub fn walk<", "run"),
    ("replay_theory/specs/Replay.antt", "replay_after replay event =", "replay_after replay it =", "event"),
)


def test_planted(work: str) -> None:
    """A copy of what the script reads, with one fault: a status 1, and a line that names it."""
    for name in ("scripts/mte_scripts", *(f"crates/{crate}/{part}" for crate in os.listdir(CRATES) for part in ("src", "specs", "proofs"))):
        if os.path.isdir(os.path.join(ROOT, name)):
            shutil.copytree(os.path.join(ROOT, name), os.path.join(work, name))
    shutil.copy(os.path.join(ROOT, "scripts/statement"), os.path.join(work, "scripts"))
    expect("a copy prints something else", run("run", root=work) == run("run"))
    for path, old, new, named in PLANTED:
        file = pathlib.Path(work, "crates", path)
        before = file.read_text(encoding="utf-8")
        expect(f"{path} has no `{old}`", old in before)
        file.write_text(before.replace(old, new), encoding="utf-8")
        status, out, error = run("run", root=work)
        is_told = error.count("\n") == 1 and error.startswith("statement: ") and re.search(rf"\b{named}\b", error)
        expect(f"`{new.strip() or 'nothing'}` in {path}: status {status}, {error.strip()[-200:]}", (status, out) == (1, "") and is_told)
        file.write_text(before, encoding="utf-8")


# ---- what is printed


def recount(text: str) -> "tuple[int, int, int]":
    """Definitions, lines and modules, from the text alone."""
    definitions, lines, modules, inside = 0, 0, set(), False
    for line in text.split("\n"):
        if line.startswith("==== "):
            inside = line.endswith(".antt")
            modules |= {line} if inside else set()
        elif inside and line.strip() and not line.strip().startswith("--"):
            definitions += bool(re.match(r"(abbrev|unfoldable) pub |pub (record|data) ", line))
            lines += 1
    return definitions, lines, len(modules)


def counts_of_texts() -> "dict[str, tuple[int, ...]]":
    """The counts by topic, after each was counted again from its text, which is read from the top down and has its headline."""
    status, table, error = run("--count")
    counts = {name: tuple(map(int, numbers)) for name, *numbers in map(str.split, table.split("\n")[1:-1])}
    expect(f"--count has {list(counts)}", (status, error, list(counts)) == (0, "", list(statements.TOPICS)), status, error)
    wrong = []
    for name in statements.TOPICS:
        found = statements.statement(name)
        text = statements.as_text(found)
        wrong += [f"{name}: {each}" for each in faults_downwards(found, text)]
        wrong += [f"{name}: --count says {counts[name]}, the text has {recount(text)}"] * (recount(text) != counts[name][:3])
        heads = {*re.findall(r"(?m)^(?:(?:abbrev|unfoldable|pub|record|data|enum|struct|const|trait) )+([^\s({:]+)", text)}
        wrong += [f"{name}: its list has not {word}" for word in {*HEADLINES.get(name, "").split()} - heads]
    expect("counts, headlines and order of the topics", not wrong, *wrong)
    return counts


def test_run() -> None:
    text = statements.as_text(statements.statement("run"))
    expect("run: the script prints something else", run("run") == (0, text, ""))
    order = [text.index(each) for each in ("requires { AreValid Run options }", "==== crates/mte_engine/specs", "record IsTunedRun ", "record HasGiven ",
                                           "record IsTunedOver ", "\ntrace_from ", "\nlines ")]
    expect(f"run: its order is {order}", order == sorted(order) and text.index("pub fn run<") < order[2])
    heads = re.findall(r"(?m)^(?:abbrev pub|unfoldable pub|pub record|pub data) [^\s({:]+[^=]*?$", text)
    expect("run: a definition stands there twice", len(set(heads)) == len(heads))
    for part in ("\n-- What is written for the events of a trace, for at most", "\n-- laws: law_pieces, law_trace_text\nabbrev pub trace_of :"):
        expect(f"run: a comment, and laws above a definition: {part}", part in text)


def faults_downwards(found: statements.Statement, text: str) -> "Iterator[str]":
    """What is not so: something before each definition cites it, and a module stands together, after all of other modules that cite it."""
    cited = {key for it in found.contracts for key in statements.own_links(it)}
    done: "set[str]" = set()
    for place, its in itertools.groupby(found.definitions, lambda it: it.key.place):
        yield from [f"{place} stands in two places"] * (place in done)
        done.add(place)
        for it in its:
            links = statements.own_links(it)
            yield from [f"nothing before {it.key.name} cites it"] * (it.key not in cited)
            yield from (f"{key.name} stands before {it.key.name}, which cites it" for key in links if key.place in done - {place})
            cited.update(links)
    places = [text.find(f"\n{it.text}\n") for it in found.definitions]
    yield from ["the text has another order"] * (-1 in places or places != sorted(places))


def test_readme() -> None:
    """README.md's commands, promises and numbers are the script's."""
    counts = counts_of_texts()
    readme = text_of("README.md")
    promises = re.findall(r"(?m)^\d\. \*\*([^*]+?)\.?\*\*", readme[readme.index("## What is proved") :])
    expect(f"README's promises are {promises}", promises == [title for title, _ in statements.PROMISES.values()])
    commands = re.findall(r"(?m)^\| `([\w-]+)` \|", readme[readme.index("The commands are:") : readme.index("## Two commands")])
    expect(f"README's commands are {commands}", commands == list(statements.COMMANDS))
    said = re.search(r"`scripts/statement run`[^.]*?\b([\d,]+)\s+definitions\s+of\s+([\d,]+)\s+lines\s+in\s+(\d+)\s+modules", readme)
    expect("README says no counts of `scripts/statement run`", said)
    numbers = tuple(int(each.replace(",", "")) for each in said.groups()) if said else ()
    expect(f"README says {numbers}, the script {counts['run'][:3]}", numbers == counts["run"][:3])


# ---- what refuses a wrong definition


@functools.lru_cache(maxsize=None)
def law(name: str) -> statements.Definition:
    crates = [name_of(file).split("/")[0] for file in rust_files() if f"pub fn {name}(" in text_of(file)]
    expect(f"a crate has {name}", crates)
    return statements.function(crates[0], name)


def is_case(name: str) -> bool:
    """Whether a test of a crate is called so, a lemma, or a test of scripts/tests."""
    files = (path for places in ("*/src/tests/**/*.rt", "*/proofs/*.antt") for path in CRATES.glob(places))
    said = re.compile(rf"(?m)^(?:fn {name}\(|(?:pub )?{name} :)")
    return os.path.isfile(os.path.join(ROOT, f"scripts/tests/test_{name}.py")) or any(said.search(text_of(file)) for file in files)


def leads_to(found: statements.Definition, word: str, definition: statements.Key) -> bool:
    """Whether a law names a word that reaches the definition, or names the definition."""
    named = [key for key in statements.own_links(found) if key.name == (word or definition.name)]
    return any(definition in (key, *statements.reach([statements.definition(key)])[0]) for key in named)


def test_laws() -> None:
    """PROOFS.md has each definition of at least ten lines once. A law that it names leads there, and each case exists."""
    section = text_of("docs/PROOFS.md").split("## What a definition has to be believed for\n")[1].split("\n## ")[0]
    long = {it.key.name: it.key for it in statements.statement("program").own if it.lines >= 10}
    rows = [line.strip("| ").split(" | ") for line in re.findall(r"(?m)^\| `.*", section)]
    listed = [name for row in rows for name in re.findall("`([^`]+)`", row[0])]
    expect(f"PROOFS.md has {sorted(listed)}, and long are {sorted(long)}", sorted(listed) == sorted(long))
    wrong = []
    for names, laws, cases in rows:
        for found, words in re.findall(r"`(law_\w+)`(?: \(([^)]*)\))?", laws):
            pairs = itertools.product(re.findall("`([^`]+)`", words) or [""], re.findall("`([^`]+)`", names))
            wrong += [f"{found} does not lead to {name} by {word or 'its own name'}" for word, name in pairs if not leads_to(law(found), word, long[name])]
        wrong += [f"{names}: no case is called {case}" for case in re.findall("`([^`]+)`", cases) if not is_case(case)]
        wrong += [f"{names}: nothing refuses it"] * ("`" not in laws + cases)
    told = {it.key: re.findall(r"law_\w+", statements.laws_on(it)) for it in statements.statement("run").own}
    wrong += [f"{name} does not name {key.name}" for key, found in told.items() for name in found if key not in statements.own_links(law(name))]
    expect("what PROOFS.md says of long definitions, and which laws name a definition", not wrong, *wrong)
    expect("laws name definitions of `run`", sum(map(bool, told.values())) > 50, told)


# ---- the page


class Page(html.parser.HTMLParser):
    """What a page has; and what is wrong with its form."""

    VOID = ("meta",)

    def __init__(self, text: str):
        super().__init__(convert_charrefs=True)
        self.open, self.ids, self.links, self.tags, self.wrong, self.texts = [], [], [], [], [], []
        self.feed(text)
        self.close()
        if self.open:
            self.wrong.append(f"not closed: {self.open}")

    def handle_starttag(self, tag, attributes):
        names = dict(attributes)
        self.tags.append((tag, names))
        self.ids += [names["id"]] if "id" in names else []
        self.links += [names["href"]] if "href" in names else []
        if tag not in self.VOID:
            self.open.append(tag)

    def handle_endtag(self, tag):
        if not self.open or self.open.pop() != tag:
            self.wrong.append(f"</{tag}> closes another element")

    def handle_data(self, data):
        self.texts.append(data)


@pytest.mark.parametrize("name", statements.TOPICS)
def test_page(name: str) -> None:
    own = statements.statement(name)
    text = statement_page.page(own)
    page, shown = Page(text), own.contracts + own.definitions
    policies = [names["content"] for tag, names in page.tags if names.get("http-equiv") == "Content-Security-Policy"]
    seen = "".join(page.texts)
    for what, wrong in {
        "its form": page.wrong,
        "an id stands there twice": len({*page.ids}) != len(page.ids),
        "links lead out of the page, or nowhere": sorted({link for link in page.links if link[:1] != "#" or link[1:] not in page.ids}),
        "nothing leads to a definition": [each for each in page.ids if f"#{each}" not in page.links],
        f"{len(page.ids)} places for {len(own.definitions)} definitions": len(page.ids) != len(own.definitions),
        "it runs or loads something": [tag for tag, names in page.tags if tag in ("script", "img", "link", "iframe", "form")
                                       or any(it.startswith("on") for it in names)],
        f"its policy is {policies}": not (len(policies) == 1 and "default-src 'none'" in policies[0] and "script-src 'none'" in policies[0]),
        "it is not dark for those who want that": "prefers-color-scheme: dark" not in text,
        "what it does not show as it is written": [each.key.name for each in shown if each.text not in seen],
        "the script prints something else": name == "run" and run("--html", name) != (0, text, ""),
    }.items():
        expect(f"--html {name}: {what}", not wrong, wrong)


def test_examples() -> None:
    """An example stands beside what it works out, as its file has it."""
    found = statements.examples()
    own = [each for each in statements.statement("run").own if each.key in found]
    expect(f"{len(own)} definitions of `run` have an example", len(own) >= 5)
    text = "".join(Page(statement_page.page(statements.statement("run"))).texts)
    for each in own:
        example = found[each.key]
        last = example.text.split("\n\n")[-1]
        expect(f"the example of {each.key.name} is not one of its file", last in text_of(example.file) and each.key.name in last)
        expect(f"no example follows {each.key.name}", text.find(example.text, text.index(each.text)) > 0)


def test_words() -> None:
    for words, status, says in (
        ((), 2, "it wants one name"),
        (("run", "tune"), 2, "it wants one name"),
        (("running",), 2, "there is no command or promise running"),
        (("--htm", "run"), 2, "there is no option --htm"),
        (("--html",), 2, "it wants one name"),
        (("--count", "run"), 2, "--count takes no name"),
    ):
        got, out, error = run(*words)
        is_told = error.startswith("statement: ") and error.count("\n") == 1 and says in error
        expect(f"{words}: status {got}, {error.strip()}", (got, out) == (status, "") and is_told)
    status, help_text, _ = run("--help")
    expect("--help does not have every name", status == 0 and all(re.search(rf"\b{name}\b", help_text) for name in statements.TOPICS))
    expect("safe: its text does not say that it has no contract", statements.NO_CONTRACT in run("safe")[1])
