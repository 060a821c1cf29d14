"""What checks show, by the package of each language: the program's line of `check --claim`, and its numbers, over drawn
certificates, right and spoiled."""

import shutil
from pathlib import Path

import drawn_certificates
from checks import expect, skip_without
from library_cases import DONE, NO, run_command
from mte_scripts.places import ROOT

TESTS = f"{ROOT}/scripts/tests"
KINDS = ("profile", "history", "timeline")
NUMBERS = "cost limit step forced sizes requests bytes large snapshots events".split()


def line_of(kind, numbers):
    """The line of a claim by its numbers."""
    counts = {"profile": ("sizes", "requests", "bytes", "large"), "history": ("snapshots",), "timeline": ("events",)}[kind]
    words = [f"claim {'waste' if kind == 'profile' else 'footprint'} {numbers['cost']}"]
    words += [f"{name} {numbers[name]}" for name in ("limit", "step", "forced", *counts)]
    return " ".join(words) if not any(numbers[name] for name in NUMBERS[4:] if name not in counts) else f"too much: {numbers}"


class Claims:
    """Drawn cases, with what the program says of each: a claim's line, `refused CODE` or `error CODE LINE`."""

    def __init__(self, number):
        told = [(case, drawn_certificates.answer_of(*case, claim=1)) for case in drawn_certificates.draw_certificates(number)]
        self.cases = [case for case, said in told if said]
        self.wanted = [self.words_of(*said) for _, said in told if said]

    @staticmethod
    def words_of(end, text):
        words = text.decode().split()
        if end == DONE:
            first, line, rest = text.decode().split("\n")
            return line if (first, rest) == ("optimal", "") else f"no claim: {text}"
        return f"refused {words[1]}" if end == NO else " ".join(["error", words[0], *words[3:]])

    def lines(self):
        """As the callers read them."""
        return "".join(f"{command} {first.hex()}. {counts.hex()}.\n" for command, first, counts in self.cases).encode()

    def compare(self, name, got):
        expect(f"{name}: an answer to each case", len(got) == len(self.cases), len(got), len(self.cases))
        for case, want, line in zip(self.cases, self.wanted, got):
            expect(f"{name}: what {case} shows", line == want, line, want)

    def compare_callers(self, name, made):
        """A caller prints a claim's kind and numbers, a `|` and the line of its text."""
        expect(f"{name}: the caller ends", made.returncode == 0, made.stderr[-600:])
        self.compare(name, list(map(self.both, made.stdout.decode().splitlines())))

    @staticmethod
    def both(line):
        numbers, bar, said = line.partition("|")
        if not bar:
            return line
        kind, *rest = map(int, numbers.split())
        by_numbers = line_of(KINDS[kind - 1], dict(zip(NUMBERS, rest)))
        return said if said == by_numbers else f"{said} is not {by_numbers}"


def line_of_python(package, command, first, counts):
    check = package.check_claim if command == "check" else package.check_fit_claim
    try:
        found = check(first, counts)
    except package.Error as error:
        return f"error {int(error.code)} {error.line}".removesuffix(" 0")
    if not found.is_optimal:
        return f"refused {int(found.code)}" if found.claim is None else f"a claim: {found}"
    by_numbers = line_of(found.claim.kind, found.claim._asdict())
    return str(found.claim) if by_numbers == str(found.claim) else f"{found.claim} is not {by_numbers}"


def try_claims(compiler, shared, strict, sanitized, number=500):
    """By Python, which is C's functions, and by C++ under the sanitizers."""
    claims = Claims(number)
    kinds = {line.split()[0]: line for line in claims.wanted}
    expect("the cases are shown, refused and faulty", set(kinds) == {"claim", "refused", "error"}, kinds)
    claims.compare("Python", [line_of_python(shared.package, *case) for case in claims.cases])
    if not skip_without("c++", "claims by C++"):
        words = ["c++", "-std=c++17", *strict, *sanitized, f"{TESTS}/library_claims.cpp", *compiler.flags()]
        claims.compare_callers("C++", run_command([compiler.build("claims", words)], input=claims.lines()))


def try_rust_claims(crates, environment, number=500):
    """By the crate, whose copy gets the caller as an example."""
    claims = Claims(number)
    shutil.copyfile(f"{TESTS}/library_claims.rs", Path(crates, "mte-tool/examples/claims.rs"))
    words = ["cargo", "run", "--offline", "--quiet", "--example", "claims"]
    claims.compare_callers("Rust", run_command(words, cwd=f"{crates}/mte-tool", env=environment, input=claims.lines()))
