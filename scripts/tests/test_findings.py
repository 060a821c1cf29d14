"""Tests what find_faults writes for other programs, and what it compares: --json, --sarif, --annotations, --suppressions, --baseline,
--children, --tombstones and --tombstone, and the job of examples/build/errors.yml. On the built program, or on the one that MTE_TOOL names.

SARIF's schema is in no package of Debian 12. FORMS says by hand what the standard (SARIF 2.1.0, OASIS) asks of each object that is written.
Where SARIF_SCHEMA names the schema, which the sources of GCC 15 have (gcc/testsuite/lib/sarif-schema-2.1.0.json in Debian's gcc-15), each
document is held against it too. Where Debian's python3-sarif-python-om is installed, or SARIF_OM names a folder of it, whose classes are
made from the schema, the names of the properties and which of them must be there are compared with these."""

import glob
import json
import os
import re
import shutil
import subprocess

import checks
import workflow
from checks import expect, skip
from mte_scripts.faults import findings, sarif, tombstone

HERE = os.path.dirname(os.path.realpath(__file__))
ROOT = os.path.dirname(os.path.dirname(HERE))
SCRIPTS = os.path.join(ROOT, "scripts")

FIND = os.path.join(SCRIPTS, "find_faults")
PROGRAM = """\
#include <stdlib.h>
#include <string.h>
static char *volatile kept, *volatile other;
static void fill(char *text, int n) {
  for (int i = 0; i < n; i++) text[i] = 'a';  // WRONG
}
static void drop(void) { free(kept); }
static int late(void) { return kept[5]; }  // WRONG
static void shorten(void) { other[-3] = 1; }  // WRONG
int main(int count, char **words) {
  kept = malloc(48);
  other = malloc(100);
  char *text = malloc(32);
  fill(text, 33 + (count > 5));
  drop();
  int found = late();
  shorten();
  free(other + 16);  // WRONG
  return count > 1 && strcmp(words[1], "fail") == 0 ? 7 : found & 0;
}
"""
WRONG = [number for number, line in enumerate(PROGRAM.split("\n"), 1) if line.endswith("// WRONG")]
# of each object that is written, its properties (`!`: it must be there), each with what it is: a type, words, another object, or a list of one
FORMS = {
    "sarif_log": {"$schema": "uri", "version!": ["2.1.0"], "runs!": ("run",)},
    "run": {"tool!": "tool", "automationDetails": "run_automation_details", "originalUriBaseIds": {"artifact_location"},
            "invocations": ("invocation",), "columnKind": ["utf16CodeUnits", "unicodeCodePoints"], "results": ("result",)},
    "tool": {"driver!": "tool_component"},
    "tool_component": {"name!": str, "rules": ("reporting_descriptor",)},
    "reporting_descriptor": {"id!": str, "shortDescription": "multiformat_message_string", "fullDescription": "multiformat_message_string",
                             "defaultConfiguration": "reporting_configuration", "properties": "property_bag"},
    "reporting_configuration": {"level": ["none", "note", "warning", "error"]},
    "multiformat_message_string": {"text!": str},
    "run_automation_details": {"id": str},
    "invocation": {"executionSuccessful!": bool, "exitCode": int, "toolExecutionNotifications": ("notification",)},
    "notification": {"message!": "message", "level": ["none", "note", "warning", "error"]},
    "message": {"text": str},
    "result": {"message!": "message", "ruleId": str, "ruleIndex": int, "level": ["none", "note", "warning", "error"], "occurrenceCount": int,
               "partialFingerprints": {str}, "stacks": ("stack",), "locations": ("location",), "relatedLocations": ("location",),
               "suppressions": ("suppression",), "baselineState": ["new", "unchanged", "updated", "absent"], "properties": "property_bag"},
    "location": {"id": int, "physicalLocation": "physical_location", "logicalLocations": ("logical_location",), "message": "message"},
    "physical_location": {"artifactLocation": "artifact_location", "region": "region"},
    "artifact_location": {"uri": "uri", "uriBaseId": str},
    "region": {"startLine": int},
    "logical_location": {"name": str, "kind": str},
    "stack": {"message": "message", "frames!": ("stack_frame",)},
    "stack_frame": {"location": "location", "module": str},
    "suppression": {"kind!": ["inSource", "external"], "justification": str},
}
URI = re.compile(r"(?:[a-z][a-z0-9+.-]*:)?[A-Za-z0-9._~:/?#\[\]@!$&'()*+,;=%-]*")


def run(words, cwd, **environment):
    done = subprocess.run(words, cwd=cwd, capture_output=True, text=True, errors="replace", timeout=300, stdin=subprocess.DEVNULL,
                          env={**os.environ, **environment})
    return done.returncode, done.stdout, done.stderr


def write(path, text):
    os.makedirs(os.path.dirname(path), exist_ok=True)
    with open(path, "w", encoding="utf-8") as file:
        file.write(text)


def read(path):
    with open(path, encoding="utf-8") as file:
        return file.read()


def build(work, text=PROGRAM, name="app"):
    """Builds a program in the folder; its source is src/NAME.c."""
    source = os.path.join("src", f"{name}.c")
    write(os.path.join(work, source), text)
    status, _, said = run([os.path.join(SCRIPTS, "traced_cc"), "-w", "-g", "-O0", source, "-o", name], work)
    expect(f"{name} does not build", status == 0, said)


# SARIF

def wrong(value, form, path="log"):
    """What is wrong with a value of a form, as texts."""
    if isinstance(form, tuple):
        return [each for at, one in enumerate(value) for each in wrong(one, form[0], f"{path}[{at}]")] if isinstance(value, list) else [path]
    if isinstance(form, set):
        good = isinstance(value, dict)
        return [each for key, one in value.items() for each in wrong(one, *form, f"{path}.{key}")] if good else [path]
    if isinstance(form, list):
        return [] if value in form else [f"{path}: {value}"]
    if form == "uri":
        return [] if isinstance(value, str) and URI.fullmatch(value) else [f"{path}: {value}"]
    if form == "property_bag":
        good = isinstance(value, dict) and all(isinstance(each, str) for each in value.get("tags", []))
        return [] if good and len(set(value.get("tags", []))) == len(value.get("tags", [])) else [path]
    if isinstance(form, type):
        good = isinstance(value, form) and not (form is int and (isinstance(value, bool) or value < 0))
        return [] if good else [f"{path}: {value}"]
    if not isinstance(value, dict):
        return [path]
    known = {name.rstrip("!"): each for name, each in FORMS[form].items()}
    found = [f"{path}: no {name[:-1]}" for name in FORMS[form] if name.endswith("!") and name[:-1] not in value]
    found += [f"{path}: there is no {name}" for name in value if name not in known]
    return found + [each for name, one in value.items() if name in known for each in wrong(one, known[name], f"{path}.{name}")]


TYPES = {"string": str, "integer": int, "number": (int, float), "boolean": bool, "array": list, "object": dict, "null": type(None)}


def against_schema(value, schema, whole, path="log"):
    """What is wrong with a value by a JSON schema of draft 4, as far as SARIF's uses it; formats but that of a URI are not looked at."""
    if "$ref" in schema:
        return against_schema(value, whole["definitions"][schema["$ref"].rsplit("/", 1)[1]], whole, path)
    kinds = [schema["type"]] if isinstance(schema.get("type"), str) else schema.get("type", [])
    is_boolean = isinstance(value, bool)
    if kinds and not any(isinstance(value, TYPES[kind]) and (not is_boolean or kind == "boolean") for kind in kinds):
        return [f"{path}: it is no {kinds}"]
    found = [f"{path}: {value} is none of {schema.get('enum')}"] * ("enum" in schema and value not in schema["enum"])
    if isinstance(value, dict):
        known, more = schema.get("properties", {}), schema.get("additionalProperties", {})
        found += [f"{path}: there is no {name}" for name in schema.get("required", []) if name not in value]
        for name, one in value.items():
            form = known.get(name, more)
            found += [f"{path}: {name} is unknown"] if form is False else against_schema(one, {} if form is True else form, whole, f"{path}.{name}")
    if isinstance(value, list):
        found += [f"{path}: it is short"] * (len(value) < schema.get("minItems", 0))
        texts = [json.dumps(each, sort_keys=True) for each in value]
        found += [f"{path}: two items are the same"] * (schema.get("uniqueItems", False) and len(set(texts)) < len(texts))
        found += [each for at, one in enumerate(value) for each in against_schema(one, schema.get("items", {}), whole, f"{path}[{at}]")]
    if isinstance(value, str):
        found += [f"{path}: {value} has another form"] * ("pattern" in schema and not re.search(schema["pattern"], value))
        found += [f"{path}: {value} is no URI"] * (schema.get("format", "").startswith("uri") and not URI.fullmatch(value))
    if isinstance(value, (int, float)) and not is_boolean:
        found += [f"{path}: {value} is out of range"] * (not schema.get("minimum", value) <= value <= schema.get("maximum", value))
    for name, wanted in (("anyOf", range(1, 100)), ("oneOf", range(1, 2))):
        fitting = sum(not against_schema(value, each, whole, path) for each in schema.get(name, []))
        found += [f"{path}: {fitting} of {name} fit"] * (name in schema and fitting not in wanted)
    return found


def by_schema(document):
    """What is wrong with a document by the schema, where it is there."""
    if "SARIF_SCHEMA" not in os.environ:
        return []
    schema = json.loads(read(os.environ["SARIF_SCHEMA"]))
    return against_schema(document, schema, schema)


def rules_of_sarif(document):
    """What the standard asks beside the forms of objects: that indices and names of bases point to what is there, and lines begin at 1."""
    found = []
    for run_of_log in document["runs"]:
        rules = run_of_log["tool"]["driver"]["rules"]
        if len({rule["id"] for rule in rules}) != len(rules):
            found.append("two rules have one id")
        for result in run_of_log["results"]:
            if rules[result["ruleIndex"]]["id"] != result["ruleId"]:
                found.append("ruleIndex and ruleId are of two rules")
            text = json.dumps(result)
            found += [f"the base {base}" for base in re.findall(r'"uriBaseId": "(\w+)"', text) if base not in run_of_log["originalUriBaseIds"]]
            found += ["a line 0" for line in re.findall(r'"startLine": (\d+)', text) if int(line) < 1]
            ids = [each["id"] for each in result.get("relatedLocations", [])]
            found += ["two related locations have one id"] * (len(set(ids)) != len(ids))
        found += [f"{name} ends without /" for name, base in run_of_log["originalUriBaseIds"].items() if not base["uri"].endswith("/")]
    return found


def try_sarif(path, name):
    document = json.loads(read(path))
    expect(f"{name}: its SARIF", not wrong(document, "sarif_log"), wrong(document, "sarif_log"))
    expect(f"{name}: its SARIF by the schema", not by_schema(document), by_schema(document))
    expect(f"{name}: its SARIF's places", not rules_of_sarif(document), rules_of_sarif(document))
    return document


def try_forms():
    """FORMS against the classes that are made from the schema."""
    folders = [os.environ.get("SARIF_OM", ""), *glob.glob("/usr/lib/python3/dist-packages/sarif_om")]
    folder = next((each for each in folders if each and os.path.isdir(each)), None)
    if not folder:
        skip("without python3-sarif-python-om: the forms of SARIF against its classes")
        return
    for form, properties in FORMS.items():
        made = re.findall(r"= attr\.ib\((default=[^,]*, )?metadata=\{\"schema_property_name\": \"([^\"]+)\"\}", read(f"{folder}/_{form}.py"))
        names = {name: not default for default, name in made}
        for name in properties:
            is_needed = name.endswith("!")
            name = name.rstrip("!")
            expect(f"SARIF: {form} has {name}", name in names and names[name] == is_needed, names)
        needed = {name for name, is_needed in names.items() if is_needed} - {name.rstrip("!") for name in properties}
        expect(f"SARIF: {form} has all it needs", not needed, needed)


def try_validator(work):
    """The validator refuses what is wrong."""
    whole = json.loads(read(os.path.join(work, "all.sarif")))
    for name, change in (
        ("no version", lambda log: log.pop("version")),
        ("another version", lambda log: log.update(version="2.0.0")),
        ("no message", lambda log: log["runs"][0]["results"][0].pop("message")),
        ("a property that is none", lambda log: log["runs"][0]["results"][0].update(line=3)),
        ("a line as text", lambda log: log["runs"][0]["results"][0]["locations"][0]["physicalLocation"]["region"].update(startLine="3")),
        ("a space in a uri", lambda log: log["runs"][0]["results"][0]["locations"][0]["physicalLocation"]["artifactLocation"].update(uri="a b")),
        ("another rule", lambda log: log["runs"][0]["results"][0].update(ruleIndex=7)),
        ("no base", lambda log: log["runs"][0].update(originalUriBaseIds={})),
    ):
        spoiled = json.loads(json.dumps(whole))
        change(spoiled)
        expect(f"the validator takes {name}", wrong(spoiled, "sarif_log") or rules_of_sarif(spoiled))
        if "SARIF_SCHEMA" in os.environ and name not in ("another rule", "no base"):
            expect(f"the schema takes {name}", by_schema(spoiled))


# one program

def try_json(work):
    words = [FIND, "--json", "all.json", "--sarif", "all.sarif", "--annotations", "./app"]
    status, told, said = run(words, work)
    answer = json.loads(read(os.path.join(work, "all.json")))
    found = answer["processes"][0]["findings"]
    lines = [each["frames"][0]["line"] for each in found]
    good = status == answer["status"] == 1 and answer["findings"] == 4 and lines == WRONG and answer["ended"] == 0
    expect("--json: its findings", good, status, answer, said)
    expect("--json: kinds", [each["kind"] for each in found] == ["overflow", "use after free", "underflow", "invalid free"], found)
    expect("--json: CWE", [each["cwe"] for each in found] == [787, 416, 124, 761], [each["cwe"] for each in found])
    expect("--json: files", all(each["frames"][0]["file"] == "src/app.c" for each in found), found[0]["frames"])
    expect("--json: the callers", [frame["function"] for frame in found[0]["frames"]] == ["fill", "main"], found[0]["frames"])
    expect("--json: its block", found[1]["block"] == {"bytes": 48, "offset": 5, "state": "freed"}, found[1]["block"])
    expect("--json: the odds", found[1]["odds"]["this heap"]["fraction"] == "1/1", found[1]["odds"])
    expect("--json: ids", len({each["id"] for each in found}) == 4, [each["id"] for each in found])
    document = try_sarif(os.path.join(work, "all.sarif"), "app")
    places = [result["locations"][0]["physicalLocation"] for result in document["runs"][0]["results"]]
    expect("--sarif: its lines", [place["region"]["startLine"] for place in places] == WRONG, places)
    expect("--sarif: its files", {place["artifactLocation"]["uri"] for place in places} == {"src/app.c"}, places)
    shown = re.findall(r"^::error file=src/app\.c,line=(\d+),title=[^:]+::\S.*$", told, re.M)
    expect("--annotations: its lines", list(map(int, shown)) == WRONG, told)
    os.makedirs(os.path.join(work, ".git", "build"))
    status, told, _ = run([FIND, "--annotations", os.path.join(work, "app")], os.path.join(work, ".git", "build"))
    expect("--annotations: from the repository's top on", told.count("\n::error file=src/app.c,line=") == 4, told)
    shutil.rmtree(os.path.join(work, ".git"))
    status, told, _ = run([FIND, "--json", "-", "./app"], work)
    expect("--json -: it is all that is printed", status == 1 and json.loads(told) == answer, told)
    status, _, said = run([FIND, "--json", "none/all.json", "./app"], work)
    expect("--json: a folder that is none", status == 3 and "none/all.json" in said, status, said)


def try_suppressions(work):
    for name, text, left, unused in (
        ("a function", "use-after-free:late\n", 3, 0),
        ("a caller", "# all of it\n\n*:main\n", 0, 0),
        ("a file", "*:src/*.c\n", 0, 0),
        ("a file and a function", "overflow:src/app.c in fi*\nunderflow:*\n", 2, 0),
        ("another kind", "double-free:*\n", 4, 1),
        ("another function", "use-after-free:lat\nuse-after-free:late\n", 3, 1),
    ):
        write(os.path.join(work, "passed"), text)
        status, told, said = run([FIND, "--suppressions", "passed", "--sarif", "some.sarif", "./app"], work)
        good = status == bool(left) and f"\nerrors {left}\n" in "\n" + told and said.count("no error is passed over") == unused
        expect(f"--suppressions: {name}", good, status, told, said)
        results = try_sarif(os.path.join(work, "some.sarif"), name)["runs"][0]["results"]
        expect(f"--suppressions: {name}, in SARIF", sum("suppressions" in each for each in results) == 4 - left, results)
    for text in ("main\n", "leak:main\n", "overflow:\n", ":main\n"):
        write(os.path.join(work, "passed"), text)
        status, told, said = run([FIND, "--suppressions", "passed", "./app"], work)
        expect(f"--suppressions: {text.strip()} is refused", status == 2 and not told and "line 1" in said, status, told, said)
    status, _, said = run([FIND, "--suppressions", "none", "./app"], work)
    expect("--suppressions: no file", status == 2 and "none" in said, status, said)


def try_baseline(work):
    status, told, _ = run([FIND, "--baseline", "all.json", "--sarif", "some.sarif", "./app"], work)
    expect("--baseline: nothing is new", status == 0 and "errors 0\n" in told and "\nknown 4\n" in told, status, told)
    results = try_sarif(os.path.join(work, "some.sarif"), "known")["runs"][0]["results"]
    expect("--baseline: in SARIF", {each["baselineState"] for each in results} == {"unchanged"}, results)
    moved = "// one line more\n\n" + PROGRAM.replace("  shorten();\n", "").replace("int main(", "static void more(void) { other[100 + 12] = 1; }\nint main(")
    build(work, moved.replace("  int found", "  more();\n  int found"), "moved")
    write(os.path.join(work, "src/app.c"), read(os.path.join(work, "src/moved.c")))
    run([os.path.join(SCRIPTS, "traced_cc"), "-w", "-g", "-O0", "src/app.c", "-o", "app2"], work)
    status, told, said = run([FIND, "--baseline", "all.json", "./app2"], work)
    good = status == 1 and "\nerrors 1\n" in told and "\nknown 3\n" in told and "in more: store" in told
    expect("--baseline: one is new, after lines that moved", good, status, told, said)
    expect("--baseline: one is gone", re.search(r"^gone: src/app.c:\d+ in shorten: ", told, re.M), told)
    write(os.path.join(work, "src/app.c"), PROGRAM)
    for text in ("", "[]", "{}", '{"form": 1, "tool": "find_faults", "processes": 3}', "[" * 100000):
        write(os.path.join(work, "passed"), text)
        status, told, said = run([FIND, "--baseline", "passed", "./app"], work)
        expect(f"--baseline: {text[:20]} is refused", status == 2 and not told and "is no --json" in said, status, told, said)


def try_lambdas(work):
    """The names of lambdas differ in what looks like parameters: a new error in one is not a known one of another."""
    source, driver = os.path.join(HERE, "faults_programs", "lambdas.cpp"), os.path.join(SCRIPTS, "traced_c++")
    status, _, said = run([driver, "-w", "-O0", "-pthread", source, "-o", "lambdas"], work, TRACED_CXX="g++")
    expect("lambdas does not build", status == 0, said)
    run([FIND, "--json", "lambdas.json", "./lambdas"], work)
    for words, new, known in (([], 0, 3), (["x"], 1, 1)):
        status, told, said = run([FIND, "--baseline", "lambdas.json", "./lambdas", *words], work)
        good = status == new and f"errors {new}\n" in told and f"\nknown {known}\n" in told
        expect(f"--baseline: {new} lambda is new", good, status, told, said)
        name = f"lambdas.cpp:{11 + new} in main::{{lambda()#{1 + new}}}::operator(): load"
        expect("a lambda's whole name", f"traced_cc: {name}" in said and (not new or name in told), told, said)



OBJECTS = """\
#include <stdlib.h>
#include <string.h>
struct node { char *name, *text; long uses; };
static char *copy(const char *text) { return strcpy(malloc(strlen(text) + 1), text); }
static struct node *new_node(const char *name) {
  struct node *made = malloc(sizeof *made);
  made->text = NULL;
  made->name = copy(name);
  return made;
}
static void drop(void *part) { free(part); }
static void end_node(struct node *node) {
  drop(node->name);
  free(node);
}
static long use(struct node *node) {
  char *volatile name = node->name;
  node->uses++;
  return strlen(name);
}
static long later(struct node *node) { return node->uses; }
int main(int count, char **words) {
  struct node *first = new_node("first"), *second = new_node("second");
  char *third = copy("third"), *fourth = copy("fourth");
  end_node(first);
  long sum = use(first);
  if (count > 1) {
    end_node(second);
    sum += later(second);
    free(third), sum += third[0];
    free(fourth), sum += fourth[0];
  }
  return sum & 0;
}
"""


MAKER = """\
#include <stdlib.h>
#include <string.h>
static char *copy(const char *text) {
  size_t length = strlen(text);
  char *made = malloc(length);
  for (size_t i = 0; i <= length; i++) made[i] = text[i];
  return made;
}
static void drop(void) { free(copy("four")); }
static char *keep(void) { return copy("sixsix"); }
static void clear(char *text) { text[100] = 0; }
int main(void) {
  drop();
  char *kept = keep(), *other = malloc(100);
  clear(other);
  clear(malloc(100));
  free(kept);
  return 0;
}
"""


def try_objects(work):
    """Uses of the parts of one object are one entry; other objects, and blocks that one function frees and uses, have their own. So have
    overflows of one function in blocks of others, but not in blocks that it made."""
    build(work, MAKER, "maker")
    _, told, said = run([FIND, "--json", "-", "./maker"], work)
    found = [(each["frames"][0]["function"], each["times"]) for each in json.loads(told)["processes"][0]["findings"]]
    expect("a function that makes its blocks is one entry", found == [("copy", 2), ("clear", 1), ("clear", 1)], found, said)
    build(work, OBJECTS, "objects")
    for words, wanted in (([], [["use", "use", "use"]]), (["x"], [["use", "use", "use"], ["later"], ["main"], ["main"]])):
        _, told, said = run([FIND, "--json", "-", "./objects", *words], work)
        found = [[use["frame"]["function"] for use in each["uses"]] for each in json.loads(told)["processes"][0]["findings"]]
        expect(f"one object is one entry: {words}", found == wanted, found, said)


# many processes

MAKEFILE = """\
check: good app bad
\t./good
\t./app
\t./app again
\t-./bad
good app bad: %: src/%.c
\t$(CC) -w -g $< -o $@
"""


def try_children(work):
    folder = os.path.join(work, "many")
    good = "#include <stdlib.h>\nint main(void) { char *p = malloc(4); p[3] = 1; free(p); return 0; }\n"
    bad = "#include <stdlib.h>\nint main(void) { char *volatile p = 0; free(malloc(9)); *p = 1; return 0; }\n"
    for name, text in (("src/good.c", good), ("src/app.c", PROGRAM), ("src/bad.c", bad), ("Makefile", MAKEFILE)):
        write(os.path.join(folder, name), text)
    words = [FIND, "--children", "--keep", "kept", "--json", "all.json", "--sarif", "all.sarif", "make", "-s", "check"]
    status, told, said = run(words, folder, CC=os.path.join(SCRIPTS, "traced_cc"))
    heads = re.findall(r"^process \d+, (\w+):$", told, re.M)
    expect("--children: its processes", status == 1 and heads == ["app", "bad"], status, told, said)
    expect("--children: its totals", "\nprocesses 4\nerrors 5\n" in told and "\ncrashed 1\n" in told, told)
    expect("--children: what two have is told once", told.count(" in late: ") == 1 and told.count("    in 1 process more\n") == 4, told)
    answer = json.loads(read(os.path.join(folder, "all.json")))
    names = [process["name"] for process in answer["processes"]]
    expect("--children: each in --json", sorted(names) == ["app", "app", "bad", "good"] and answer["findings"] == 9, names, answer["findings"])
    document = try_sarif(os.path.join(folder, "all.sarif"), "many")
    runs = {each["automationDetails"]["id"]: [it["partialFingerprints"]["findFaults/v1"] for it in each["results"]] for each in document["runs"]}
    wanted = [f"find_faults/{name}/" for name in ("app", "bad", "good")]
    expect("--children: a run for each program in --sarif", sorted(runs) == wanted and len(document["runs"]) == 3, runs)
    of_app = [each for process in answer["processes"] if process["name"] == "app" for each in process["findings"]]
    ids, times = runs["find_faults/app/"], sum(each["occurrenceCount"] for each in document["runs"][0]["results"])
    expect("--children: each cause once", sorted(ids) == sorted({each["id"] for each in of_app}), ids)
    expect("--children: as often as it came", times == sum(max(each["times"], 1) for each in of_app), times)
    app = next(process for process in answer["processes"] if process["name"] == "app")
    many = [{**app, "name": f"test{number}"} for number in range(1000)]
    whole = sarif.document({**answer, "processes": many})["runs"]
    size = len(findings.text(whole))
    expect("a suite of 1,000 programs: one run", len(whole) == 1 and 0 < len(whole[0]["results"]) < 10 and size < 1 << 20, len(whole), size)
    again, told_again, said = run([FIND, "--children", "--read", "kept"], folder)
    expect("--children: --read tells the same", again == 1 and told_again == told, told_again, said)
    status, told, said = run([FIND, "--children", "--baseline", "all.json", "make", "-s", "check"], folder)
    expect("--children: --baseline", status == 0 and "\nerrors 0\n" in told and "\nknown 9\n" in told, status, told, said)
    status, told, said = run([FIND, "--children", "true"], folder)
    expect("--children: no process is traced", status == 3 and "traced_cc" in said, status, told, said)
    status, told, said = run([FIND, "--children", "./good", "x"], folder)
    expect("--children: no error", status == 0 and "processes 1\nerrors 0\n" in told, status, told, said)


FORKS = {
    "one": """\
#include <stdlib.h>
#include <sys/wait.h>
#include <unistd.h>
int main(void) {
  char *volatile p = malloc(16);
  p[16] = 1;  // WRONG
  if (!fork()) p[-1] = 2, execl("./two", "two", NULL);
  wait(NULL);
  if (!fork()) free(p), free(p), _exit(5);
  wait(NULL);
  return 0;
}
""",
    "two": "#include <stdlib.h>\nint main(void) { char *p = malloc(8); p[16] = 1; return 0; }\n",
}


def try_forks(work):
    """A child has what its parent did too, and a process that runs another program has a log for each."""
    folder = os.path.join(work, "forks")
    for name, text in FORKS.items():
        build(folder, text, name)
    status, told, said = run([FIND, "--children", "./one"], folder)
    found = re.findall(r"^(?:process (\d+(?:\.2)?), (\w+):|src/(\w+)\.c:(\d+) in main: (\w+) .*)$", told, re.M)
    heads, places = [(number.endswith(".2"), name) for number, name, *_ in found if number], [each[2:] for each in found if not each[0]]
    expect("forks: the processes", status == 1 and heads == [(False, "one"), (False, "one"), (True, "two"), (False, "one")], told, said)
    wanted = [("one", "6", "store"), ("one", "7", "store"), ("two", "2", "store"), ("one", "9", "free")]
    expect("forks: each error is told once", places == wanted and "\nprocesses 4\nerrors 4\n" in told, told)
    expect("forks: the first is in all of its program", "    in 2 processes more\n" in told and "incomplete" not in told, told)


# tombstones

PHONE = """\
*** *** *** *** *** *** *** *** *** *** *** *** *** *** *** ***
Build fingerprint: 'google/husky/husky:14/AP1A/1:user/release-keys'
ABI: 'arm64'
pid: 4242, tid: 4250, name: worker  >>> com.example.app <<<
tagged_addr_ctrl: 000000000007fff3 (PR_TAGGED_ADDR_ENABLE, PR_MTE_TCF_SYNC, mask 0xfffe)
signal 11 (SIGSEGV), code 9 (SEGV_MTESERR), fault addr 0x0b000073c1a2f0d5
    x0  0b000073c1a2f0d0  x1  0000000000000005  x2  0000000000000000  x3  0000000000000000

2 total frames
backtrace:
      #00 pc 00000000000012a4  /data/app/lib/arm64/libapp.so (late+20) (BuildId: 0123456789abcdef)
      #01 pc 0000000000001330  /data/app/lib/arm64/libapp.so (main+96) (BuildId: 0123456789abcdef)

Note: multiple potential causes for this crash were detected, listing them in decreasing order of likelihood.

Cause: [MTE]: Use After Free, 5 bytes into a 48-byte allocation at 0x73c1a2f0d0

deallocated by thread 4250:
      #00 pc 0000000000047ca4  /apex/com.android.runtime/lib64/bionic/libc.so (scudo_free+40) (BuildId: ab)
      #01 pc 0000000000001200  /data/app/lib/arm64/libapp.so (drop+16) (BuildId: 0123456789abcdef)

allocated by thread 4250:
      #00 pc 0000000000047ca4  /apex/com.android.runtime/lib64/bionic/libc.so (scudo_malloc+40) (BuildId: ab)
      #01 pc 0000000000001210  /data/app/lib/arm64/libapp.so (main+16) (BuildId: 0123456789abcdef)

Cause: [MTE]: Buffer Overflow, 21 bytes right of a 16-byte allocation at 0x73c1a2f0b0
"""


def try_tombstones(work):
    status, _, said = run([FIND, "--tombstones", "stones", "./app"], work)
    stones = read(os.path.join(work, "stones"))
    expect("--tombstones", status == 1, said)
    each = re.split(r"(?m)^(?=\*\*\* )", stones)[1:]
    # the overflow is of a block that fills its granules
    for text, says in zip(each, (
        (r"SEGV_MTESERR\), fault addr 0x0[1-9a-f]0070[0-9a-f]{10}$", r"Buffer Overflow, 0 bytes right of a 32-byte allocation at 0x70"),
        (r"Use After Free, 5 bytes into a 48-byte allocation", r"#00 pc [0-9a-f]{16}  /\S+/app \(late\)", r"deallocated by thread 1:\n.*\(drop\)"),
        (r"Buffer Underflow, 3 bytes left of a 100-byte allocation",),
        (r"Abort message: 'Scudo ERROR: corrupted chunk header",),
    )):
        for pattern in says:
            expect(f"--tombstones: {pattern}", re.search(pattern, text, re.M), text)
    expect("--tombstones: one for each that is caught", len(each) == 4, len(each))
    for at, text in enumerate(each):
        write(os.path.join(work, "stone"), text)
        status, told, said = run([FIND, "--tombstone", "stone", "./app"], work)
        ranks = re.findall(r"^    ([01]\.\d\d) src/app\.c:(\d+) in ", told, re.M)
        expect(f"--tombstone: number {at} fits its error best", status == 1 and ranks[:1] == [("1.00", str(WRONG[at]))], told, said)
    write(os.path.join(work, "stone"), PHONE)
    _, told, said = run([FIND, "--tombstone", "stone", "./app"], work)
    ranks = re.findall(r"^    ([01]\.\d\d) src/app\.c:(\d+) in (.*)$", told, re.M)
    good = [line for _, line, _ in ranks[:1]] == [str(WRONG[1])] and "the kind, the size, the offset, 2 functions of the backtrace" in told
    expect("--tombstone: one of a phone", good and float(ranks[0][0]) > 0.9 > float(ranks[1][0]), told, said)
    found = tombstone.read(PHONE)
    expect("--tombstone: its frames", found.backtrace == ["late", "main"] and found.freed == ["scudo_free", "drop"], found)
    write(os.path.join(work, "stone"), "no tombstone\n")
    status, told, said = run([FIND, "--tombstone", "stone", "./app"], work)
    expect("--tombstone: a text that is none", status == 2 and not told and "tombstone" in said, status, said)


def try_workflow(work):
    """The job of examples/build/errors.yml, as written, but for the package that it unpacks."""
    folder, tools = os.path.join(work, "job"), os.path.join(work, "tools")
    os.mkdir(tools)
    for script in ("traced_cc", "find_faults"):
        os.symlink(os.path.join(SCRIPTS, script), os.path.join(tools, f"mte_{script}"))
    for name, text in (("src/good.c", "int main(void) { return 0; }\n"), ("src/app.c", PROGRAM), ("src/bad.c", "int main(void) { return 0; }\n"),
                       ("Makefile", MAKEFILE), ("errors.suppressions", "")):
        write(os.path.join(folder, name), text)
    text = read(os.path.join(ROOT, "examples", "build", "errors.yml"))
    environment = {**os.environ, **workflow.settings(text), "PATH": f"{tools}:{os.environ['PATH']}"}
    done = workflow.run(workflow.scripts(text)[-1], folder, environment)
    good = done.returncode == 1 and done.stdout.count("\n::error file=src/app.c,line=") == 4
    expect("the job of errors.yml fails, with its annotations", good, done.returncode, done.stdout)
    try_sarif(os.path.join(folder, "errors.sarif"), "the job")
    write(os.path.join(folder, "errors.suppressions"), "*:src/app.c\n")
    done = workflow.run(workflow.scripts(text)[-1], folder, environment)
    expect("the job of errors.yml passes", done.returncode == 0, done.returncode, done.stdout)


class Forms(checks.Part):
    def test_forms(self):
        try_forms()
        if "SARIF_SCHEMA" not in os.environ:
            print("skipped, without SARIF_SCHEMA: the documents by the schema")


class Findings(checks.Part):
    @classmethod
    def setup_class(cls):
        checks.need("gcc g++ make", "what find_faults writes for other programs")
        checks.with_heap()
        cls.work = cls.folder()
        build(cls.work)

    def test_json(self):
        try_json(self.work)

    def test_validator(self):
        try_validator(self.work)

    def test_suppressions(self):
        try_suppressions(self.work)

    def test_baseline(self):
        try_baseline(self.work)

    def test_lambdas(self):
        try_lambdas(self.work)

    def test_objects(self):
        try_objects(self.work)

    def test_children(self):
        try_children(self.work)

    def test_forks(self):
        try_forks(self.work)

    def test_tombstones(self):
        try_tombstones(self.work)

    def test_workflow(self):
        try_workflow(self.work)
