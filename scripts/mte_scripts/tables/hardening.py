"""What tune_program adds by --verify: the program as it is measured in the real Scudo."""

import os
from typing import Any

from mte_scripts import shell_words, text_files
from mte_scripts.entry_point import printable, say
from mte_scripts.recording import recording
from mte_scripts.reports import measured_section
from mte_scripts.tables import scudo_map, services, settings, verdict, verification
from mte_scripts.tables.figures import Figures
from mte_scripts.tables.result_folder import Folder, Folders
from mte_scripts.tables.summary import prediction
from mte_scripts.tables.tuning_answer import Answer
from mte_scripts.text_layout import wrap_text


class InScudo:
    """The program that OPTIONS name, to be run in the Scudo of --verify. What is missing for that is said at once."""

    def __init__(self, options: Any) -> None:
        self.options, self.scudo = options, verification.place(options.verify)
        self.kept: "str | None" = None

    def keep_input(self, path: str) -> "str | None":
        """The file PATH with the program's standard input, where there is one to keep."""
        self.kept = path if verification.keep_input(path) else None
        return self.kept

    def build(self, tuned: str, classes: list[int], program: str, work: str, place: str) -> "dict[str, str | None]":
        """The libraries of all allocators by their names, None for the program's own; Scudo's are built with its own table and with this one. In
        the folder PLACE each has a name of the same length."""
        own = verdict.present(program)
        libraries: "dict[str, str | None]" = {own: None}
        libraries |= {name: file for name, file in verdict.installed_allocators().items() if name != own}
        for name, file, table, words in ((verdict.DEFAULT, "default.so", None, "its own table"), (tuned, "tuned.so", classes, "this one")):
            say("tune_program", f"compiling Scudo with {words}; that takes about half a minute")
            libraries[name] = path = os.path.join(work, file)
            verification.build(self.scudo, path, table, work)
        libraries = verification.place_alike(libraries, place)
        for name in (verdict.DEFAULT, tuned):
            verification.need_loaded(libraries[name])
        return libraries

    def verify(self, options: Any, folders: Folders, answer: Answer) -> None:
        """Runs the program in the real Scudo, leaves the tuned one in the new folder, and adds to summary and report what was measured. OPTIONS
        are those of the record."""
        folder, found, work = folders.new, answer.found, folders.work.path
        tuned, path = found.first.name, recording.find_program(options.words[0])
        libraries = self.build(tuned, found.first.classes, path, work, folders.shared.path)
        made = f"libscudo_{plain(options.name())}.so"
        folder.write(made, text_files.read(os.path.join(work, "tuned.so")))
        folder.write(verification.CONFIG, scudo_map.config(found.first.classes))
        ended = None
        if options.load is not None:
            rounds = services.Rounds(services.server_of(options), libraries, folder, work)
            ended = rounds.measure()
            if ended and not rounds.has_rows():
                services.refuse_end(folder, rounds, ended)
            rows, further = rounds.rows(), rounds.further_lines()
        else:
            rows, further = self.measure(libraries, tuned, path, work)
        said = f"{options.name()}: {verdict.verdict(rows, tuned)}"
        measured = measured_section.section(rows, tuned, found.predicted_saving(), found.simulated is not None)
        answer.report(measured, said)
        lines = [*measured_lines(found, rows, said, options.load is not None), *further, *next_lines(options, folder, rows, tuned, made)]
        text = "".join(f"{printable(line)}\n" for line in [*lines, "", "What was recorded, and is predicted of it:"]).encode()
        folder.write("summary.txt", text + text_files.read(folder.at("summary.txt")))
        text_files.write(text_files.read(folder.at("summary.txt")))
        if ended:
            services.refuse_end(folder, rounds, ended)

    def measure(self, libraries: "dict[str, str | None]", tuned: str, path: str, work: str) -> "tuple[list[verdict.Row], list[str]]":
        """The rows of a program that ends by itself, and further lines."""
        runner, words = os.path.join(work, "peak"), self.options.words
        verification.build_runner(self.scudo, runner, work)
        rows = verdict.measure_allocators(runner, words, path, libraries, self.kept)
        if not self.options.settings:
            return rows, []
        both = [each for each in (libraries[verdict.DEFAULT], libraries[tuned]) if each]
        return rows, ["", *settings.lines(settings.measure_settings(runner, words, path, both, self.kept), both)]


def plain(name: str) -> str:
    """A name without what ends a name in LD_PRELOAD, or in a path."""
    return "".join("_" if each in " :/" or not each.isprintable() else each for each in name)


def measured_lines(found: Figures, rows: "list[verdict.Row]", said: str, is_server: bool) -> list[str]:
    """The verdict, what it follows from, and beside it what was predicted."""
    lines, runs = wrap_text(said, indent="  "), len(rows[0].peaks)
    peak = "peak" if is_server else "peak of the resident set"
    measured = f"Measured, {runs} runs each: the middle {peak}, from where to where a further one lies (95%), and processor time:"
    lines += ["", *wrap_text(measured), *verdict.lines(rows)]
    lines += wrap_text(prediction(found)) if found.timed else []
    for row in rows:
        if row.strange:
            lines += wrap_text(f"! With {row.name} the program ended otherwise than with {rows[0].name}.", indent="  ")
    return lines


def next_lines(options: Any, folder: Folder, rows: "list[verdict.Row]", tuned: str, made: str) -> list[str]:
    """How the program is run with the table, where that is worth it."""
    if not verdict.is_worth(rows, tuned):
        return []
    file = os.path.abspath(folder.file(made))
    lines = ["", "To run it in Scudo with this table, which is in the folder beside its header:"]
    lines.append(f"  LD_PRELOAD={shell_words.path_word(file)} {shell_words.path_word(options.words[0])} ..")
    if plain(file) != file:
        lines.append("! LD_PRELOAD ends a path at a space or a colon: copy the library first.")
    return lines
