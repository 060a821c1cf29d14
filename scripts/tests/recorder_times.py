#!/usr/bin/env -S python3 -B
"""Prints the table of recorders of docs/MEASUREMENTS.md: the processor time of a program that is recorded to its time alone, of its own
process, and of all processes, the reader among them. Medians of so many runs in turn. What is not installed has no row, or no column.

Usage: recorder_times.py [--runs N] [PROGRAM..]"""
import argparse
import os
import resource
import shutil
import statistics
import subprocess
import sys
import tempfile

HERE = os.path.dirname(os.path.realpath(__file__))
SCRIPTS, EXAMPLES = os.path.dirname(HERE), os.path.join(HERE, "../../examples")
PROFILE = os.path.join(SCRIPTS, "profile_program")
# what stands before the program
RECORDERS = {
    "alone": [], "All requests": [PROFILE], "`--live`": [PROFILE, "--live"], "`--timeline`": [PROFILE, "--timeline"],
    "heaptrack": ["heaptrack", "-o", "heaptrack.out"],
}
# each row: the program, and its words after it; `<` comes before its input
ROWS = {
    "`sqlite3`, `examples/sqlite_large.sql`": ["sqlite3", ":memory:", "<", f"{EXAMPLES}/sqlite_large.sql"],
    "`jq`, 110,000 records": ["jq", "map(select(.price > 0.5)) | length", "records.json"],
    "`xmllint --noout`, 60,000 records": ["xmllint", "--noout", "records.xml"],
    "`python3 records.py json 100000`": ["python3", f"{EXAMPLES}/jobs/records.py", "json", "100000"],
    "`perl examples/store.pl`": ["perl", f"{EXAMPLES}/store.pl"],
    "`lua5.4 records.lua`": ["lua5.4", f"{EXAMPLES}/jobs/records.lua"],
    "a bare loop, `free(malloc(24))`": ["./loops", "1"],
    "four threads of bare loops": ["./loops", "4"],
}
LOOPS = """#include <pthread.h>
#include <stdlib.h>
static void *run(void *none) {
  for (long k = 0; k < 20000000; k++) { void *volatile block = malloc(24); free(block); }
  return none;
}
int main(int argc, char **argv) {
  pthread_t threads[4];
  for (int k = 0; k < atoi(argv[1]); k++) pthread_create(&threads[k], 0, run, 0);
  for (int k = 0; k < atoi(argv[1]); k++) pthread_join(threads[k], 0);
}
"""
# writes what a process took when it ends; it is loaded before the recorder
OWN = """#include <stdio.h>
#include <stdlib.h>
#include <sys/resource.h>
extern char *program_invocation_short_name;
__attribute__((destructor)) static void end(void) {
  struct rusage used;
  getrusage(RUSAGE_SELF, &used);
  char line[300];
  int length = snprintf(line, sizeof line, "%s %ld.%06ld\\n", program_invocation_short_name,
                        used.ru_utime.tv_sec + used.ru_stime.tv_sec + (used.ru_utime.tv_usec + used.ru_stime.tv_usec) / 1000000,
                        (used.ru_utime.tv_usec + used.ru_stime.tv_usec) % 1000000);
  FILE *file = fopen(getenv("OWN_TIMES"), "a");
  if (file) fwrite(line, 1, length, file), fclose(file);
}
"""


def make_inputs(folder: str) -> None:
    for kind, count in (("json", 110_000), ("xml", 60_000)):
        with open(f"{folder}/records.{kind}", "wb") as file:
            subprocess.run([sys.executable, f"{EXAMPLES}/jobs/records.py", kind, str(count)], stdout=file, check=True)
    for text, words in ((LOOPS, ["-O1", "-fno-builtin", "-pthread", "-o", "loops"]), (OWN, ["-O1", "-fPIC", "-shared", "-o", "own.so"])):
        subprocess.run(["gcc", "-D_GNU_SOURCE", "-x", "c", "-", *words], input=text, text=True, cwd=folder, check=True)


def run(words: "list[str]", recorder: "list[str]", folder: str) -> "tuple[float, float]":
    """The processor time of the program's own process, and of all, in seconds."""
    words, given = (words[:-2], words[-1]) if "<" in words else (words, os.devnull)
    times = f"{folder}/times"
    open(times, "w").close()
    environment = {**os.environ, "LD_PRELOAD": f"{folder}/own.so", "OWN_TIMES": times}
    before = resource.getrusage(resource.RUSAGE_CHILDREN)
    with open(given, "rb") as file, open(f"{folder}/said", "wb") as said:
        subprocess.run([*recorder, *words], stdin=file, stdout=said, stderr=said, cwd=folder, env=environment, check=True)
    after = resource.getrusage(resource.RUSAGE_CHILDREN)
    with open(times, encoding="utf-8") as file:
        own = [float(line.split()[1]) for line in file if line.split()[0] == os.path.basename(words[0])]
    return max(own), after.ru_utime + after.ru_stime - before.ru_utime - before.ru_stime


def main() -> None:
    parser = argparse.ArgumentParser(description=__doc__, formatter_class=argparse.RawDescriptionHelpFormatter)
    parser.add_argument("programs", nargs="*", metavar="PROGRAM", help=" ".join(dict.fromkeys(words[0] for words in ROWS.values())))
    parser.add_argument("--runs", type=int, default=5, metavar="N")
    options = parser.parse_args()
    recorders = {name: words for name, words in RECORDERS.items() if not words or shutil.which(words[0])}
    print(f"| Program | {' | '.join(list(recorders)[1:])} |\n|---|{'---:|' * (len(recorders) - 1)}", flush=True)
    with tempfile.TemporaryDirectory() as folder:
        make_inputs(folder)
        for row, words in ROWS.items():
            if options.programs and words[0] not in options.programs or not (words[0] == "./loops" or shutil.which(words[0])):
                continue
            found: "dict[str, list[tuple[float, float]]]" = {name: [] for name in recorders}
            for _ in range(options.runs):
                for name, recorder in recorders.items():
                    found[name].append(run(words, recorder, folder))
            own = {name: statistics.median(own for own, _ in each) for name, each in found.items()}
            whole = {name: statistics.median(all_ for _, all_ in each) for name, each in found.items()}
            cells = (f"{own[name] / own['alone']:.2f}, {whole[name] / whole['alone']:.2f}" for name in list(recorders)[1:])
            print(f"| {row} | {' | '.join(cells)} |", flush=True)


if __name__ == "__main__":
    main()
