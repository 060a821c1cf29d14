"""What scripts/tests/test_formats.py writes of the table of the formats (formats.py): parts of other files.

A part is a form and its rows: a form is a line or more with names between « and », and the part is the first run of it
in the file after the part before, which becomes a form for each row. So the text around the rows stands in the files
alone. A part of another shape is a pattern that finds it, and its text, or a function that makes that of what then
stands in other files."""

import functools
import os
import re
import shutil
import subprocess
import textwrap
from collections.abc import Callable, Iterable, Sequence
from typing import Any, NamedTuple, Union
from pathlib import Path

from mte_scripts import formats, private_folder
from mte_scripts.formats import CODES, COMMANDS, ENDS, LIBRARY_CODES, LIBRARY_OPTIONS, OPTIONS, TOTALS
from mte_scripts.formats import Command, Option, Total, in_code
from mte_scripts.gate import statements
from mte_scripts.places import ROOT

WIDTH = 140
Row = dict[str, Any]


class Rows(NamedTuple):
    form: str
    rows: "list[Row]"

    def pattern(self) -> str:
        """What finds the part: where a name stands, a word if each row has one there, else anything."""
        parts = re.split("«(\\w+)»", self.form)
        return "(?:" + "".join(self.values(part) if at % 2 else re.escape(part) for at, part in enumerate(parts)) + ")+"

    def values(self, name: str) -> str:
        texts = [str(row[name]) for row in self.rows]
        return r"[\s\S]*?" if "\n" in "".join(texts) else r"\w+" if all(re.fullmatch(r"\w+", text)
                                                                        for text in texts) else ".*"

    def text(self) -> str:
        return "".join(re.sub("«(\\w+)»", lambda found: str(row[str(found[1])]), self.form) for row in self.rows)


class Piece(NamedTuple):
    found_by: str
    made: "Union[str, Callable[[], str]]"

    def pattern(self) -> str:
        return self.found_by

    def text(self) -> str:
        return self.made if isinstance(self.made, str) else self.made()


def line(form: str, **values: object) -> Rows:
    """A part of one row."""
    return Rows(form, [values])


def read(name: str) -> str:
    return Path(ROOT, name).read_text(encoding="utf-8")


def text_to_write(name: str) -> str:
    """A file with the parts that the table writes."""
    text, at = read(name), 0
    parts = PARTS[name]
    for part in parts() if callable(parts) else parts:
        if not (found := re.compile(part.pattern()).search(text, at)):
            raise LookupError(f"{name} has no part as {part[0][:60]!r}")
        made = part.text()
        text, at = text[: found.start()] + made + text[found.end() :], found.start() + len(made)
    return text


def write() -> None:
    for name in PARTS:
        text = text_to_write(name)
        Path(ROOT, name).write_text(text, encoding="utf-8")


# ---- words


def capital(words: str) -> str:
    return words[:1].upper() + words[1:]


def pascal(name: str) -> str:
    return "".join(map(str.capitalize, name.split("_")))


def kebab(name: str) -> str:
    return re.sub("(?<=[a-z])(?=[A-Z])", "-", name).lower()


def hyphenate_name(name: str) -> str:
    return name.replace("_", "-")


def group_digits(words: str) -> str:
    """Words with commas in their large numbers."""
    return re.sub(r"\d{5,}", lambda match: f"{int(match[0]):,}", words)


def rust_words(words: str) -> str:
    """Words as a comment of rustdoc has them."""
    return f"{group_digits(capital(words))}."


def rust_number(number: "int | None") -> str:
    return "None" if number is None else f"{number:_}" if number > 9999 else str(number)


def rust_option(text: str, option: Option) -> str:
    """Rust's value for what an option's default is."""
    return "None" if option.default is None else f"Some({text})"


def quote_names(names: "Iterable[str]") -> str:
    return ", ".join(f'"{name}"' for name in names)


def join_words(names: "Iterable[str]") -> str:
    """Words in a row: a, b and c."""
    *before, last = names
    return f"{', '.join(before)} and {last}" if before else last


def with_values(form: str, values: "dict[str, Any]") -> str:
    """Names with their values, in one line."""
    return ", ".join(form.format(name, value) for name, value in values.items())


# ---- the rows


def row_of_option(name: str, it: Option) -> Row:
    most, is_flag, is_wide = f"UINT{it.bits}_MAX", it.most == 1, it.bits == 32
    default = it.default or 0
    value = str(bool(default)).lower() if is_flag else rust_number(it.default)
    return {
        "name": name, "Name": pascal(name), "NAME": name.upper(), "option": hyphenate_name(name), "letter": it.letter,
        "bits": it.bits, "Words": rust_words(it.described()), "help": it.with_values(it.help), "number": it.default,
        "python": f"{default:_}",
        "least": rust_number(it.least), "most": rust_number(it.most), "from": it.least, "to": it.most,
        "first": rust_number(it.least if it.default is None
                             else it.default), "plain": rust_option(rust_number(default), it),
        "clap": rust_option(f'"{it.default}"',
                            it), "codes": "None" if it.default is None else f'Some (codes "{it.default}")',
        "as_u32": f"self.{name}" if is_wide else f"u32::from(self.{name})",
        "cast": "" if is_wide else f" as u{it.bits}",
        "as_u64": f"u64::from(self.{name})" if is_flag else f"self.{name}",
        "type": "bool" if is_flag else "u64",
        "value": name if it.default is None else f"{name}: {value}",
        "c_most": most, "c_beyond": 0 if it.least else most,
    }  # fmt: skip


def row_of_code(code: int) -> Row:
    sentence, name = formats.code_sentence(code), formats.own_name(code)
    return {"code": code, "name": CODES[code].name, "Name": name, "NAME": formats.upper_name(code),
            "sentence": sentence, "Words": rust_words(sentence)}


def row_of_command(name: str, it: Command) -> Row:
    options = formats.in_help(it.options)
    return {
        "name": name, "Name": pascal(name), "NAME": name.upper(), "inputs": len(it.inputs),
        "on": "_ON" if len(it.inputs) > 1 else "",
        "list": " ∷ ".join([*map(pascal, options), "[]"]), "const": FIRST_WITH.get(tuple(options), "&[]"),
        "first": "        first: *const c_void,\n        first_length: usize,\n" if len(it.inputs) > 1 else "",
    }  # fmt: skip


def row_of_total(name: str, it: Total) -> Row:
    value = it.value or f"count_by (λ p. {it.test} p.1) happened"
    return {"name": name, "code": in_code(name), "words": group_digits(it.words), "Words": rust_words(it.words),
            "test": it.test,
            "value": value.removesuffix(" happened"), "lead": "" if name == [*TOTALS][0] else "∷ "}


# the first command with each row of options
FIRST_WITH = {tuple(formats.in_help(it.options)): name.upper() for name, it in reversed(COMMANDS.items()) if it.options}
OF_OPTIONS = {name: row_of_option(name, it) for name, it in OPTIONS.items()}
OF_HELP = [OF_OPTIONS[name] for name in formats.in_help(OPTIONS)]
EVERY_OPTION = [*OF_OPTIONS.values()]
OF_LIBRARY = [OF_OPTIONS[name] for name in LIBRARY_OPTIONS]
OF_PROGRAM = [OF_OPTIONS[name] for name, it in OPTIONS.items() if it.is_of_program]
OF_CODES = [row_of_code(code) for code in LIBRARY_CODES]
NO_CODE = {"code": 0, "Name": "NoCode", "NAME": "NONE", "Words": "There is none."}
OF_ENDS = [{"number": number, "NAME": name, "sentence": it.sentence, "Words": rust_words(it.sentence)} for number,
           (name, it) in enumerate(ENDS.items())]
OF_COMMANDS = [row_of_command(*each) for each in COMMANDS.items()]
OF_TOTALS = [row_of_total(*each) for each in TOTALS.items()]
COUNTED = [row for row in OF_TOTALS if row["test"]]
COUNTS_OF_EVENTS = [row for row in OF_TOTALS if row["test"] or row["value"].startswith("count_by")]


# ---- C


def comment(words: str, width: int, indent: str) -> str:
    """A comment of C in lines of at most so many columns, the first of which begins where it stands."""
    filled = textwrap.fill(f"/* {words}\0*/", width - len(indent), subsequent_indent="   ", break_long_words=False,
                           break_on_hyphens=False)
    return filled.replace("\0", " ").replace("\n", f"\n{indent}")


def in_columns(heads: "list[str]", words: "Iterable[str]", width: int = 0) -> str:
    """Lines of C, each with a comment in one column, in lines of at most so many columns, if it is to be cut."""
    column = max(map(len, heads)) + 1
    said = (comment(each, width, " " * column) if width else f"/* {each} */" for each in words)
    return "".join(f"{head:{column}}{each}\n" for head, each in zip(heads, said))


def enumeration(name: str, values: "list[tuple[str, int, str]]") -> Piece:
    """An enumeration of the header: each name, number and words."""
    heads = [f"    {each} = {number}{',' if at < len(values) else ''}" for at,
             (each, number, _) in enumerate(values, 1)]
    text = in_columns(heads, (words for *_, words in values), WIDTH)
    return Piece(rf"(?s)typedef enum {name} \{{.*?\n\}} {name};", f"typedef enum {name} {{\n{text}}} {name};")


CALLS_OF = {  # the codes of an outcome, with the calls of the heap
    (50, 52): "a load or a store",
    (60, 61, 62): "malloc, calloc and realloc",
    (63, 64, 65): "free and realloc",
}


def words_of_code(code: int) -> str:
    calls = [f"of {names}: " for codes, names in CALLS_OF.items() if code in codes]
    return "".join(calls) + formats.code_sentence(code)


ENDS_OF_C = [(f"MTE_TOOL_{name}", n, f"{it.sentence}; {it.leaves}") for n, (name, it) in enumerate(ENDS.items())]
CODES_OF_C = [(f"MTE_TOOL_CODE_{formats.upper_name(code)}", code, words_of_code(code)) for code in LIBRARY_CODES]
LIMITS = {  # of those in C
    "MOST_INPUT": "the bytes of an input",
    "MOST_CLASSES": "the classes of a table",
    "LARGEST_CLASS": "in granules of 16 bytes",
    "LARGEST_SIZE": "in bytes: the largest request that a class serves",
    "MOST_COUNT": "how often a profile may count a size",
}


def options_of_c() -> str:
    """Which call reads which options, their structure, and its defaults."""
    calls: "dict[tuple[str, ...], list[str]]" = {}
    for name, command in COMMANDS.items():
        if command.library_options:
            calls.setdefault(tuple(command.library_options), []).append(name)
    calls[formats.HEAP].append("mte_tool_heap_new")
    reads = (f"{join_words(names)} {'reads' if len(names) == 1 else 'read'} {join_words(options)}" for options,
             names in calls.items())
    readers = f"Each call reads its own options, and the others may have any value: {'; '.join(reads)}. */"
    members = [("size_t size;", "sizeof (mte_tool_options)")]
    for name, option in LIBRARY_OPTIONS.items():
        members.append((f"uint64_t {name};", option.described() + ("; it has no default" if option.default is None
                                                                   else "")))
    defaults = ["(limit)" if option.default is None else str(option.default) for option in LIBRARY_OPTIONS.values()]
    lines = in_columns([f"    {member}" for member, _ in members], (words for _, words in members))
    return (
        f"{textwrap.fill(readers, WIDTH, initial_indent='   ', subsequent_indent='   ')}\n"
        f"typedef struct mte_tool_options {{\n{lines}}} mte_tool_options;\n\n"
        "/* The program's own defaults, with this limit; for a call that reads no limit, any number. In C++ a `limit` "
        "that is no constant\n   has to be unsigned. */\n"
        f"#define MTE_TOOL_OPTIONS(limit) {{sizeof(mte_tool_options), {', '.join(defaults)}}}"
    )


def declaration_of_c(name: str, command: Command) -> str:
    """A function that returns an end, in lines that are cut between two arguments."""
    head = f"MTE_TOOL_CHECKED mte_tool_end mte_tool_{name}("
    first = ["const void *first", "size_t first_length"] if len(command.inputs) > 1 else []
    given = ["const mte_tool_options *options", *first, "const void *input", "size_t length", "mte_tool_text *output",
             "mte_tool_result *result"]
    kept = ", ".join(given).replace(" ", "\0").replace(",\0", ", ")
    return textwrap.fill(f"{kept});", WIDTH, initial_indent=head,
                         subsequent_indent=" " * len(head)).replace("\0", " ") + "\n"


def byte_of(name: str) -> int:
    """Where an option is in the proved functions' structure."""
    at = 0
    for each, it in OPTIONS.items():
        size = it.bits // 8
        at += -at % size
        if each == name:
            return at
        at += size
    raise KeyError(name)


def version_of_c() -> str:
    first, second, third = map(int, formats.VERSION.split("."))
    number = 10000 * first + 100 * second + third
    return f'#define MTE_TOOL_VERSION "{formats.VERSION}"\n#define MTE_TOOL_VERSION_NUMBER {number}\n'


def by_options(command: Command, before: str = "", mark: str = "") -> str:
    """The words for the options by which a call answers."""
    options = [f"{mark}{before}{option}{mark}" for option in command.library_options]
    return f", by {join_words(options)}" if options else ""


def command_of_cpp(name: str, command: Command) -> str:
    """A function of mte_tool.hpp over texts."""
    takes = [f"std::string_view {text}" for text in command.inputs]
    if command.library_options:
        has_default = all(OPTIONS[option].default is not None for option in command.library_options)
        takes.append("const Options &options" + (" = Options()" if has_default else ""))
    words = f"{command.words}{by_options(command, before='options.')}.".replace("`", '"')
    options = "&options" if command.library_options else "nullptr"
    called = f"detail::Called(mte_tool_{name}, {', '.join(command.inputs)}, {options})"
    head = f"inline {capital(command.gives)} {name}({', '.join(takes)}) {{"
    return f"{comment(words, WIDTH, ' ')}\n{head}\n    return {called}.{command.gives}();\n}}\n"


# ---- Python


def command_of_python(name: str, command: Command) -> str:
    """The options of the tuner need no name."""
    takes, given = [f"{text}: Bytes" for text in command.inputs], [f'"{name}"', *command.inputs]
    for option in command.library_options:
        takes += ["*"] * (option not in formats.TUNER and "*" not in takes)
        default = OPTIONS[option].default
        takes.append(f"{option}: int" + (f" = {default:_}" if default is not None else ""))
        given.append(f"{option}={option}")
    result = "bytes" if command.gives == "text" else capital(command.gives)
    options = "".join(f"    {option}: {OPTIONS[option].described()}\n" for option in command.library_options)
    words = f"{command.words}." + (f"\n\n{options}    " if options else "")
    answer = f"call_over_texts({', '.join(given)}).{command.gives}{'' if command.gives == 'text' else '()'}"
    return f'def {name}({", ".join(takes)}) -> {result}:\n    """{words}"""\n    return {answer}\n'


# ---- Rust

RUST_FAULTS = "The input's first fault, or that memory ran out."
RUST_ERRORS = "The input's first fault, an option out of its range, or that memory ran out."

# The commands whose function has taken options since the first version of the interface. A function of Rust keeps
# its parameters: that of another command takes none, and where it has options, one that takes them stands beside it.
TAKING_OPTIONS = ("tune", "fit", "replay", "run")


def row_of_rust(function: str, name: str, is_taking: bool) -> Row:
    """A function over texts: that of a command, or that which takes its options."""
    command = COMMANDS[name]
    takes = [f"{text}: &[u8]" for text in command.inputs] + ["options: &Options"] * is_taking
    words = f"The same as [`{name}`]" if function != name else command.words
    return {
        "words": words + by_options(command, mark="`") * is_taking, "errors": RUST_ERRORS if is_taking else RUST_FAULTS,
        "function": function, "takes": ", ".join(takes), "gives": capital(command.gives),
        "call": "call_on" if len(command.inputs) > 1 else "call",
        "given": ", ".join([f"c::mte_tool_{name}", *command.inputs, "options" if is_taking else "&Options::default()"]),
        "answer": ".text" if command.gives == "text" else f".{command.gives}()",
    }  # fmt: skip


def rows_of_rust() -> "Iterable[Row]":
    for name in COMMANDS:
        is_taking = name in TAKING_OPTIONS
        yield row_of_rust(name, name, is_taking)
        if COMMANDS[name].library_options and not is_taking:
            yield row_of_rust(f"{name}_with", name, True)


OF_RUST = [*rows_of_rust()]


def names_of_rust() -> str:
    """What the crate gives of these, as rustfmt lays it out."""
    names = ", ".join(sorted(row["function"] for row in OF_RUST))
    whole = f"pub use commands::{{{names}}};"
    return whole if len(whole) <= WIDTH else f"pub use commands::{{\n    {names},\n}};"


def rows_of_commands() -> str:
    """The options of the commands, as rt fmt lays them out."""
    made = []
    for options, name in reversed(FIRST_WITH.items()):
        items = [f"OptionName::{pascal(option)}" for option in options]
        whole = ", ".join(items)
        listed = f"&[{whole}]" if len(whole) <= 60 else "&[\n" + "".join(f"    {item},\n" for item in items) + "]"
        made.append(f"const {name}: &[OptionName] = {listed};\n")
    return "\n".join(made)


def arms_of_plain() -> "list[Row]":
    arms: "dict[tuple[str, ...], list[str]]" = {}
    for name, command in COMMANDS.items():
        arms.setdefault(command.options, []).append(f'"{hyphenate_name(name)}"')
    found = [{"said": " | ".join(said), "names": quote_names(f"--{hyphenate_name(each)}" for each in options)}
             for options, said in arms.items()]
    return [*found, {"said": "_", "names": ""}]


# ---- the recorders and the page

OF_RECORDERS = """LARGEST_SIZE MOST_CLASSES MOST_SNAPSHOTS MOST_INPUT LARGEST_REQUEST MOST_EVENTS LAST_VARIABLE
    FARTHEST_ACCESS FARTHEST_MOVE""".split()
OF_PAGE = {"GRANULE": "GRANULE_BYTES", **{name: name
                                          for name in "LARGEST_CLASS LARGEST_SIZE MOST_CLASSES MOST_INPUT".split()}}
LIMIT = 8  # with which the page's heap begins; its tables begin with as many as there can be, as Scudo's default has


def numbers(names: "dict[str, str]") -> "list[Row]":
    return [{"name": name, "value": formats.NUMBERS[number]} for name, number in names.items()]


def inputs_of_page() -> "list[Piece]":
    """The ranges of the page's inputs, each with the name of its option, and perhaps `heap-` before it, or its own."""
    made = []
    for name in re.findall(r'id="([\w-]+)" min="', read("web/page.html")):
        if it := OPTIONS.get(name.removeprefix("heap-")):
            value = it.default or (LIMIT if name.startswith("heap-") else it.most)
            made.append(Piece(rf'id="{name}" min="\d+" max="\d+" value="\d+"',
                              f'id="{name}" min="{it.least}" max="{it.most}" value="{value}"'))
    return made


def on_page(words: "str | None") -> str:
    return group_digits((words or "").replace("`", "'"))


def script_of_page() -> "list[Rows]":
    defaults = {name: LIMIT if option.default is None else option.default for name, option in OPTIONS.items()}
    causes = {kebab(it.name): it.words for code, it in CODES.items() if code in range(60, 66)}
    of_two = (hyphenate_name(name) for name, it in COMMANDS.items() if len(it.inputs) > 1)
    return [
        Rows("const «name» = «value»;\n", numbers(OF_PAGE)),
        line("const REGION = 1n << «bits»n;\n", bits=formats.REGION_START.bit_length() - 1),
        line("const DEFAULTS = { «all» };\n", all=with_values("{}: {}", defaults)),
        line("const OPTION_BITS = { «all» };\n", all=with_values("{}: {}",
                                                                 {name: it.bits for name, it in OPTIONS.items()})),
        line("const HEAP_OPTIONS = [«all»];\n", all=quote_names(formats.HEAP)),
        line("const COMMANDS = [«all»];\n", all=quote_names(map(hyphenate_name, COMMANDS))),
        line("const OF_TWO_TEXTS = [«all»];\n", all=quote_names(of_two)),
        line("const ENDED = [«all»];\n", all=quote_names(name.lower().replace("_", " ") for name in ENDS)),
        Rows('  «code»: "«text»",\n', [{"code": code, "text": on_page(it.words)} for code, it in CODES.items()
                                       if it.status == 2]),
        Rows('  «name»: "«text»",\n', [{"name": name if name.isalpha() else f'"{name}"', "text": on_page(words)}
                                       for name, words in causes.items()]),
    ]


# ---- the totals


def tests_of_totals() -> str:
    """The import of the tests in the definitions, in lines of at most 140 columns."""
    head, tests = "use Rattle.replay_theory.specs.Replay.{", dict.fromkeys(["Answer", *(row["test"] for row in COUNTED),
                                                                            "is_silent"])
    return "".join(f"{head}{names}}}\n" for names in map(lambda it: it.rstrip(","),
                                                         textwrap.wrap(", ".join(tests), WIDTH - len(head))))


def lines_written() -> str:
    """The goal of `Totals::write` by its calls, from the last one to the first."""
    calls = [f"append_total{f'-{number}' if number > 1 else ''}" for number in range(1, len(TOTALS) + 1)]
    return f"    sym (append-nil c.{calls[-1]}.new.text.items)\n" + "".join(f"    ∙ c.{call}.ensures.items _\n"
                                                                            for call in reversed(calls))


def totals_in_help() -> str:
    """What the help of `replay` says after the events' lines."""
    number = "six seven eight nine ten eleven twelve thirteen fourteen fifteen sixteen".split()[len(TOTALS) - 6]
    *names, last = [f"`{name}`".replace(" ", "\0") for name in TOTALS]
    words = f"and then {number} totals: {', '.join(names)}, and {last}, the bytes of the served requests' payloads"
    return textwrap.fill(f"{words} beyond what they asked for.", 95, break_on_hyphens=False).replace("\0", " ")


RULES = (
    "    (@«code» [$($line:literal)*] «code» $n:literal $($rest:tt)*) => {\n"
    '        totals!(@«after» [$($line)* "«name» " $n "\\n"] $($rest)*)\n    };\n'
    "    (@«code» [$($line:literal)*] $($rest:tt)*) => {\n"
    '        totals!(@«after» [$($line)* "«name» 0\\n"] $($rest)*)\n    };\n'
)


def rules_of_totals() -> "list[Row]":
    """A macro for reports has two rules for each total."""
    return [{**row, "after": after} for row, after in zip(OF_TOTALS, [*(row["code"] for row in OF_TOTALS[1:]), "end"])]


# ---- what the plain program counts, and how much is to be read


def compile_plain(place: str) -> str:
    """The plain program, compiled in PLACE in the least time."""
    plain = os.path.join(place, "plain")
    subprocess.run(["rustc", "--edition", "2021", os.path.join(ROOT, "scripts/tests/plain/main.rs"), "-o", plain],
                   check=True)
    return plain


@functools.lru_cache(maxsize=None)
def count_totals() -> "list[list[str]]":
    """The lines of totals of the run of crates/mte_tool, and those of README.md's session, as the plain program counts
    them. Without rustc they are those that stand there, and a new one is 0."""
    if not shutil.which("rustc"):
        return [read_totals("crates/mte_tool/stdout", TOTALS_IN_TEXT), read_totals("README.md", TOTALS_IN_README)]
    session, trace = re.findall(r"\$ scripts/mte_tool (run .*) < (examples/\S+)", read("README.md"))[0]
    runs = ((read("crates/mte_tool/args").split(), "crates/mte_tool/stdin"), (session.split(), trace))
    with private_folder.temporary() as place:
        plain = compile_plain(place)
        outs = [subprocess.run([plain, *words], input=read(path), stdout=subprocess.PIPE, text=True, check=True).stdout
                for words, path in runs]
    return [out.splitlines()[-len(TOTALS) :] for out in outs]


def read_totals(path: str, pattern: str) -> "list[str]":
    text = re.findall(f"({pattern})", read(path))[0][0]
    found = {name: re.search(rf"(?<![a-z] ){name} (\d+)", text) for name in TOTALS}
    return [f"{name} {number[1] if number else 0}" for name, number in found.items()]


def totals_in_literal() -> str:
    """The totals of the run of crates/mte_tool as a literal in lines of at most 140 columns."""
    lines = textwrap.wrap(" ".join(f"{each}\\n".replace(" ", "\0") for each in count_totals()[0]), 120,
                          break_on_hyphens=False)
    text = "\\\n    ".join(each.replace(" ", "").replace("\0", " ") for each in lines)
    return f'const TOTALS: &str =\n    "{text}";'


def definitions_to_read() -> str:
    """How much `scripts/statement run` prints."""
    return "{} definitions of {} lines in {} modules".format(*statements.statement("run").counts)


TOTALS_IN_README = r"(?m)^    events \d+\n(?:    [a-z -]+ \d+\n)*    [a-z -]+ \d+$"
TOTALS_IN_TEXT = r"(?m)^events \d+\n(?:[a-z -]+ \d+\n)*"


# ---- the files

Parts = dict[str, Union[Sequence[Union[Rows, Piece]], "Callable[[], list[Piece]]"]]
PARTS_OF_TOTALS: Parts = {
    "crates/replay_theory/specs/Totals.antt": [
        Piece(r"(use Rattle\.replay_theory\.specs\.Replay\.\{.*\}\n)+", tests_of_totals()),
        Rows("  pub «code» : ℕ\n", OF_TOTALS),
        Rows("  «code» = 0;\n", OF_TOTALS),
        Rows("  «code» = «value» happened;\n", OF_TOTALS),
        Rows("  «code» = t.«code» + one_if («test» answer);\n", COUNTED),
    ],
    "crates/replay_theory/specs/Report.antt": [Rows('    «lead»total_line (codes "«name»") t.«code»\n', OF_TOTALS)],
    "crates/replay_core/specs/TheoryValues.antt": [Rows("  «code» = t.«code»;\n", OF_TOTALS)],
    "crates/replay_core/specs/TotalsBounds.antt": [Rows("  pub «code» : t.«code» ≤ t.events\n", COUNTS_OF_EVENTS)],
    "crates/replay_core/src/totals.rt": [
        Rows("    /// «Words»\n    pub «code»: u64,\n", OF_TOTALS),
        Rows("        «code»: 0,\n", OF_TOTALS),
        Rows('        append_total(text, b"«name»", self.«code»);\n', OF_TOTALS),
    ],
    "crates/replay_core/proofs/totals/Totals/write/Answers.antt": [Piece(r"    sym .*\n(    ∙ c\.append_total.*\n)+",
                                                                         lines_written())],
    "crates/command_words/src/commands/replay.rt": [Piece(r"(?s)and then \w+ totals: .*?\.(?=\n\n)", totals_in_help())],
    "crates/engine_tests/src/tests/totals.rt": [
        line("        totals!(@«first» [$before] $($name $n)*)\n", first=OF_TOTALS[0]["code"]),
        Rows(RULES, rules_of_totals()),
    ],
    "docs/FORMATS.md": [Piece(r"(?<=\| Line of totals \| What it counts \|\n\|---\|---\|\n)(\|.*\n)+",
                              Rows("| `«name» N` | «words» |\n", OF_TOTALS).text())],
    "scripts/tests/plain/replay.rs": [Rows("    «code»: u64,\n", OF_TOTALS),
                                      Rows('            ("«name» ", t.«code»),\n', OF_TOTALS)],
}

# Made of other parts, and so written after them.
PARTS_OF_RUNS: Parts = {
    "crates/heap_tests/src/tests/replays.rt": [Piece(r'(?s)const TOTALS: &str =\s*".*?";', totals_in_literal)],
    "crates/mte_tool/stdout": [Piece(TOTALS_IN_TEXT, lambda: "".join(f"{each}\n" for each in count_totals()[0]))],
    "README.md": [
        Piece(r"\d+ definitions of \d+ lines in \d+ modules", definitions_to_read),
        Piece(r"tail -n \d+ sqlite\.run", f"tail -n {len(TOTALS)} sqlite.run"),
        Piece(TOTALS_IN_README, lambda: "\n".join(f"    {each}" for each in count_totals()[1])),
    ],
}

PARTS_OF_OPTIONS: Parts = {
    "library/options.h": [
        Rows("    uint«bits»_t «name»;\n", EVERY_OPTION),
        Rows("    narrow.«name» = «number»;\n", OF_PROGRAM),
        Rows("    narrow.«name» = wide->«name» > «c_most» ? «c_beyond» : (uint«bits»_t)wide->«name»;\n", OF_LIBRARY),
    ],
    "crates/tool_call/src/options.rt": [
        Rows("    «Name»,\n", OF_HELP),
        Rows("    /// «Words»\n    pub «name»: u«bits»,\n", EVERY_OPTION),
        Rows("            OptionName::«Name» => («least», «most»),\n", OF_HELP),
        Rows("        «name»: 0,\n", EVERY_OPTION),
        Rows("        «name»: «first»,\n", EVERY_OPTION),
        Rows("            OptionName::«Name» => «as_u32»,\n", OF_HELP),
        Rows("            OptionName::«Name» => Options {\n                «name»: n«cast»,\n"
             "                ..self\n            },\n", OF_HELP),  # fmt: skip
        Piece(r"(?s)const \w+: &\[OptionName\].*\];\n", rows_of_commands()),
        Rows("        CommandName::«Name» => «const»,\n", OF_COMMANDS),
    ],
    "crates/tool_call/specs/OptionTable.antt": [
        line("OptionName.TheVariants.{«names»}\n", names=", ".join(row["Name"] for row in OF_HELP)),
        Rows('facts «Name» = record { name = codes "«option»"; least = «from»; most = «to»; default = «codes» }\n',
             OF_HELP),
        Rows("number_of «Name» options = options.«name»\n", OF_HELP),
        Rows("with_number options «Name» n = record options { «name» = n }\n", OF_HELP),
        line("no_options = record { «all» }\n", all="; ".join(f"{name} = 0" for name in OPTIONS)),
        Rows("options_of command.«Name» = «list»\n", OF_COMMANDS),
    ],
    "crates/command_words/src/option_table.rt": [
        Rows('const «NAME»: NumberOption = NumberOption {\n    name: "«option»",\n    value_name: "«letter»",\n'
             '    least: «least»,\n    most: «most»,\n    default: «clap»,\n    help: "«help»",\n};\n\n', OF_HELP),
        Rows("        OptionName::«Name» => «NAME»,\n", OF_HELP),
    ],
    "scripts/tests/plain/formats.rs": [
        line("pub const NUMBERS: [Number; «number»] = [\n", number=len(OPTIONS)),
        Rows('    Number {\n        name: "--«option»",\n        least: «least»,\n        most: «most»,\n'
             '        default: «plain»,\n    },\n', EVERY_OPTION),  # fmt: skip
        Rows("        «said» => &[«names»],\n", arms_of_plain()),
    ],
}

PARTS_OF_LIBRARY: Parts = {
    "include/mte_tool.h": [
        Piece(r"#define MTE_TOOL_VERSION .*\n#define MTE_TOOL_VERSION_NUMBER .*\n", version_of_c()),
        Piece(r"(#define MTE_TOOL_(?!VERSION)\w+ \d+.*\n)+",
              in_columns([f"#define MTE_TOOL_{name} {formats.NUMBERS[name]}" for name in LIMITS], LIMITS.values())),
        enumeration("mte_tool_end", ENDS_OF_C),
        enumeration("mte_tool_code", [("MTE_TOOL_CODE_NONE", 0, "there is none"), *CODES_OF_C]),
        Piece(r"(?s)   Each call reads its own options.*?#define MTE_TOOL_OPTIONS\(limit\)[^\n]*", options_of_c()),
        Piece(r"(?s)MTE_TOOL_CHECKED mte_tool_end mte_tool_score\(.*?(?=\n/\* Appends)",
              "".join(declaration_of_c(*each) for each in COMMANDS.items())),
    ],
    "include/mte_tool.hpp": [
        line("enum class Code : std::uint32_t {\n«all»\n};",
             all=",\n".join(f"    {row['Name']} = {row['code']}" for row in (NO_CODE, *OF_CODES))),
        Piece(r"(?s)(?<=   line\. \*/\n\n).*?(?=\n/\* ---- what a check showed)",
              "\n".join(command_of_cpp(*each) for each in COMMANDS.items())),
    ],
    "library/layer.h": [line("enum { «all» };", all=", ".join(row["NAME"] for row in OF_COMMANDS))],
    "library/pointers.c": [Rows("CALL«on»(«NAME», «name»)\n", OF_COMMANDS)],
    "library/sentences.h": [Rows('    "«sentence»",\n', OF_ENDS),
                            Rows('    {«code», "«name»", "«sentence»"},\n', OF_CODES)],
    "python/mte_tool/_formats.py": [Rows('    "«name»": «python»,\n', OF_LIBRARY),
                                    Rows('    "«name»": «inputs»,\n', OF_COMMANDS)],
    "python/mte_tool/_codes.py": [Rows("    «NAME» = «number»\n", OF_ENDS),
                                  Rows("    «NAME» = «code»\n", [NO_CODE, *OF_CODES])],
    "python/mte_tool/_commands.py": [
        line("and has at most «most» bytes.\n", most=f"{formats.MOST_INPUT:,}"),
        Piece(r"(?s)(?<=\n\n\n)def .*", "\n\n".join(command_of_python(*each) for each in COMMANDS.items())),
    ],
    "rust/mte-tool-sys/src/lib.rs": [
        Rows("/// «Words»\npub const MTE_TOOL_«NAME»: mte_tool_end = «number»;\n", OF_ENDS),
        Rows("/// «Words»\npub const MTE_TOOL_CODE_«NAME»: u32 = «code»;\n", [NO_CODE, *OF_CODES]),
        Rows("    pub «name»: u64,\n", OF_LIBRARY),
        Rows("    pub fn mte_tool_«name»(\n        options: *const mte_tool_options,\n«first»"
             "        input: *const c_void,\n        length: usize,\n        output: *mut mte_tool_text,\n"
             "        result: *mut mte_tool_result,\n    ) -> mte_tool_end;\n", OF_COMMANDS),  # fmt: skip
    ],
    "rust/mte-tool/src/codes.rs": [
        Rows("    /// «Words»\n    «Name»,\n", OF_CODES),
        Rows("            «code» => Code::«Name»,\n", OF_CODES),
        Rows("            Code::«Name» => «code»,\n", OF_CODES),
    ],
    "rust/mte-tool/src/options.rs": [
        Rows("    /// «Words»\n    pub «name»: «type»,\n", OF_LIBRARY),
        line("        Options { «all» }\n", all=", ".join(row["value"] for row in OF_LIBRARY)),
        Rows("\n    /// «Words»\n    #[must_use]\n    pub fn «name»(mut self, «name»: «type») -> Options {\n"
             "        self.«name» = «name»;\n        self\n    }\n", OF_LIBRARY),  # fmt: skip
        Rows("            «name»: «as_u64»,\n",
             [{"name": "size", "as_u64": "std::mem::size_of::<c::mte_tool_options>()"}, *OF_LIBRARY]),
    ],
    "rust/mte-tool/src/commands.rs": [
        line("each of at most «most» bytes.", most=f"{formats.MOST_INPUT:,}"),
        Rows("\n/// «words».\n///\n/// # Errors\n/// «errors»\npub fn «function»(«takes») -> Result<«gives», Error> {\n"
             "    Ok(«call»(«given»)?«answer»)\n}\n", OF_RUST),  # fmt: skip
    ],
    "rust/mte-tool/src/lib.rs": [Piece(r"(?s)pub use commands::\{.*?\};", names_of_rust())],
    "web/checker.c": [
        line("CHECK = «check», CHECK_FIT = «fit»",
             **dict(zip(("check", "fit"), map([*COMMANDS].index, ("check", "check_fit"))))),
        line("CLAIM_BYTE = «byte»", byte=byte_of("claim")),
    ],
    "web/formats.js": script_of_page(),
    "web/page.html": inputs_of_page,  # made of the names that are there
    "scripts/shims/formats.h": [Rows("  «name» = «value»,\n", numbers({name: name for name in OF_RECORDERS}))],
}

PARTS: Parts = {**PARTS_OF_TOTALS, **PARTS_OF_OPTIONS, **PARTS_OF_LIBRARY, **PARTS_OF_RUNS}
