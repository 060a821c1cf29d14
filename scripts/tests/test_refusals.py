"""Lists public functions of the crates whose contracts leave a refusal free, but for those that are named below.

Public is what a crate hands out by its `lib.rt`. A function can refuse if it returns a `Result`, an `Option` or a `bool`, or where its
clauses have the words for one. Its contract leaves the refusal free

- if each clause on the result speaks of success alone (`IfOk`, `OnOk`, `IfSome`, `IsTrue result →`), or of what a refusal keeps, and none of
  when it comes. If the only refusal is that memory ran out, none has to;
- if a definition that a clause cites with the result has a case for a refusal that says nothing (`⊤`, or only that it is not done), but for
  that of memory that ran out.

Besides, a clause has to say what a refusal leaves of each argument that the function may write; and no public function but a law has more than
nine clauses. Planted contracts test the script itself.
"""
import collections
import re

import checks
from checks import expect
from mte_scripts.gate.crate_texts import CRATES, equations_in, functions_in, name_of, rust_files, spec_files, text_of

# crates whose functions promise nothing: tests, trials, and examples to be copied
WITHOUT_PROMISE = re.compile(r".*_tests$|machine_trials$|callers$")
# crate and function, and why its refusal is free
NAMED = {
    ("byte_streams", "take"): "memory ran out, and the engine ends: it drops the input",
    ("byte_streams", "write_all"): "a write failed, and the engine ends: it drops the output",
    ("line_text", "next_row"): "it may leave any line to be read word by word; it has taken no line then, and what is in `numbers` is not read",
    ("line_text", "short_line"): "the same",
    ("history_count", "feed"): "memory ran out, and the engine ends: it drops the reader",
    ("trace_reader", "read_event"): "it may leave any line to `feed`, which reads all; it has read nothing then",
}

MOST_CLAUSES = 9  # of a function, `requires` and `ensures` together

# errors that have no case but that memory ran out
MEMORY = ("AllocError", "AllocFailed", "TryReserveError")
# how a case of a definition names that error
MEMORY_CASE = re.compile(r"\(Err \(?(OutOfMemory|NoMemory|RanOut)\b")
SUCCESS = re.compile(r"\bMatch(?:Result|Option) result (?=.*\(λ _\. ⊤\)$)|\b(?:IfOk|OnOk|IfSome|OnSome|ForOk|ForSome) result\b|\b(?:IsTrue|IsOk|IsSome) result →|(?<!→ )\bresult ≡ [\w.]+ →")
REFUSAL = re.compile(r"\b(?:IfErr|OnErr|IfNone|OnNone|ForErr|ForNone|IsFalse|IsErr|IsNone) result\b")
# what a refusal keeps: equations of what is new with what is old
KEPT = re.compile(r"(?:→ ?)?[\s()×]*(?:λ _\. )?[\s(]*(?:[\w.]+ )*(?P<new>[\w.]+)\.new(?:\.[\w.]+)? ≡ (?:[\w.]+ )*(?P=new)\.old(?:\.[\w.]+)?[\s()]*")


# the right side of a case that says nothing, or only that it is not done
NOTHING = re.compile(r"⊤|Unit(?: \{0\})?|\(?\w+ ≡ (?:0|DONE|true) → ⊥\)?")


def names_handed_out(root):
    """The names that the root file of a crate hands out: of items, and of modules."""
    return set(re.findall(r"\w+", " ".join(re.findall(r"(?s)\bpub (?:use|mod) (.*?);", root))))


def public_functions(text, modules, names):
    """The public functions of a file: of the items that the root hands out, and all if it hands out the file's module."""
    for each in functions_in(text):
        if each.is_public and (not modules or each.is_exported or (each.owner or each.trait or each.name) in names or names & set(modules)):
            yield each


def definitions():
    """The cases of each definition of specs/, by its name."""
    found = collections.defaultdict(list)
    for name, left, right in (each for path in spec_files() for each in equations_in(text_of(path))):
        found[name].append((left, right))
    return found


def can_refuse(function):
    return re.match(r"(?:Result|Option|io::Result|fmt::Result)\b|bool\b", function.result) is not None


def is_of_memory(result):
    error = re.search(r",\s*(\w+)[^,]*>$", result)
    return bool(error) and error[1] in MEMORY


def speaks_of_refusal(clause):
    """Whether a clause says of the result more than what success gives and what a refusal keeps."""
    if not re.search(r"\bresult\b", clause):
        return False
    if REFUSAL.search(clause) and not SUCCESS.search(clause):
        rest = REFUSAL.sub("", clause, count=1)
        return not KEPT.fullmatch(rest.strip()) or "result" in rest
    return bool(re.search(r"\bresult\b", SUCCESS.sub("", clause)))


def free_cases(clause, known):
    """The definitions that a clause cites with the result and that say nothing of some refusal."""
    if "↔" in clause or re.search(r"\bresult ≡ |≡ result\b", SUCCESS.sub("", clause)):
        return
    for name in dict.fromkeys(re.findall(r"\b([A-Za-z_]\w*)\b(?=[^→×↔≡]*\bresult\b)", clause)):
        for left, right in known.get(name, ()):
            if re.search(r"\(Err\b|\bNone\b|\bfalse\b", left) and NOTHING.fullmatch(right) and not MEMORY_CASE.search(left):
                yield f"{name}{left}"


def writable_arguments(params):
    """The arguments that a function may write."""
    names = re.findall(r"(\w+): &(?:'\w+ )?mut\b", params)
    return (["self"] if re.match(r"\s*&(?:'\w+ )?mut self\b", params) else []) + names


def unsaid_arguments(function):
    """The arguments of which no clause says what a refusal leaves."""
    for name in writable_arguments(function.params):
        if not any(re.search(rf"\b{name}\.new\b", it) and not SUCCESS.match(it) for it in function.ensures):
            yield name


def complaints(function, known):
    """Yields what a contract leaves free, and whether it is too long."""
    if len(function.ensures) + len(function.requires) > MOST_CLAUSES and not function.name.startswith("law_"):
        yield f"it has more than {MOST_CLAUSES} clauses"
    free = [case for it in function.ensures for case in free_cases(it, known)]
    if can_refuse(function) or free or any(SUCCESS.search(it) for it in function.ensures):
        if not is_of_memory(function.result):
            if not any(speaks_of_refusal(it) for it in function.ensures):
                yield "nothing says when it refuses"
            yield from (f"it says nothing of `{case}`" for case in dict.fromkeys(free))
        for name in unsaid_arguments(function):
            yield f"nothing says what a refusal leaves of `{name}`"


# contracts with what is free in them, and the same where it is said
PLANTED_CASES = """
Weak : Result ℕ Fault → Type 0
Weak (Ok n) = n ≡ 0
Weak (Err fault) = ⊤
Strong : Result ℕ Fault → Type 0
Strong (Ok n) = n ≡ 0
Strong (Err OutOfMemory) = ⊤
Strong (Err (Bad line)) = line ≡ 1
Unmade : Option ℕ → ℕ → Type 0
Unmade (Some n) number = number ≡ 0
Unmade None number = (number ≡ 0 → ⊥)
"""
PLANTED = [
    ("n: u8) -> Result<u8, Fault> ensures { IfOk result (λ x. x ≡ n) }", 1),
    ("n: u8) -> Result<u8, Fault> ensures { IfOk result (λ x. x ≡ n) } ensures err { IfErr result (λ e. 9 < n) }", 0),
    ("n: u8) -> Result<u8, AllocError> ensures { IfOk result (λ x. x ≡ n) }", 0),
    ("n: u8) -> Result<u8, Fault> ensures { MatchResult result (λ x. x ≡ n) (λ _. ⊤) }", 1),
    ("n: u8) -> Result<u8, Fault> ensures { MatchResult result (λ x. x ≡ n) (λ e. e ≡ Bad n) }", 0),
    ("n: u8) -> Option<u8> ensures { IfSome result (λ x. x ≡ n) } ensures none { IfNone result (9 < n) }", 0),
    ("n: u8) -> Option<u8> ensures { IfSome result (λ x. x ≡ n) }", 1),
    ("n: u8) -> bool ensures { (m : ℕ) → m ≡ n → IsTrue result → m < 9 }", 1),
    ("n: u8) -> bool ensures { IsTrue result ↔ (n < 9) }", 0),
    ("n: u8) -> u32 ensures { result ≡ DONE → n < 9 }", 1),
    ("n: u8) -> u32 ensures { Unmade (Some n) result }", 1),
    ("n: u8) -> Result<u8, Fault> ensures { Weak result }", 1),
    ("n: u8) -> Result<u8, Fault> ensures { Strong result }", 0),
    ("n: u8) -> u8 requires { n < 9 }" + " ensures { result ≡ n }" * 8, 0),
    ("n: u8) -> u8 requires { n < 9 }" + " ensures { result ≡ n }" * 9, 1),
    ("xs: &mut [u8]) -> Result<(), Fault> ensures { result ≡ answer xs.old }", 1),
    ("xs: &mut [u8]) -> Result<(), Fault> ensures { OnOk result (xs.new ≡ xs.old) } ensures err { OnErr result (xs.new ≡ xs.old) }", 1),
    ("xs: &mut [u8]) -> Result<(), Fault> ensures { result ≡ answer xs.old } ensures kept { OnErr result (xs.new ≡ xs.old) }", 0),
]


class Refusals(checks.Part):
    def test_planted(self):
        """Contracts that were planted are judged rightly."""
        known = collections.defaultdict(list)
        for name, left, right in equations_in(PLANTED_CASES):
            known[name].append((left, right))
        for text, want in PLANTED:
            (function,) = public_functions(f"pub fn planted({text} {{}}", ["a"], {"planted"})
            said = list(complaints(function, known))
            expect(f"planted({text}", len(said) == want, said)

    def test_crates(self):
        known, named, wrong = definitions(), set(), []
        for path in rust_files():
            crate, _, *modules = path.relative_to(CRATES).with_suffix("").parts
            if WITHOUT_PROMISE.match(crate):
                continue
            modules = [it for it in modules if it not in ("lib", "main")]
            root = next(it for it in (CRATES / crate / "src" / "lib.rt", CRATES / crate / "src" / "main.rt") if it.is_file())
            for function in public_functions(text_of(path), modules, names_handed_out(text_of(root))):
                said = list(complaints(function, known))
                if said and (crate, function.name) in NAMED:
                    named.add((crate, function.name))
                else:
                    wrong += [f"{name_of(path)}: {function.name}: {each}" for each in said]
        expect("contracts of the crates", not wrong, *wrong)
        expect("those that are named leave a refusal free", named == {*NAMED}, {*NAMED} ^ named)
