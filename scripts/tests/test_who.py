"""Tests of `tune_program --who`: a program whose places and sizes are known, with stacks of its own recorder; a record of heaptrack that is made;
and runs that are drawn, whose places are counted here. What fewer bytes save is compared with fits of timelines that are made here."""

import json
import os
import random
import re
import shutil
import subprocess
from array import array
from unittest import mock

import checks
import commands
import pytest
from checks import expect
from mte_scripts import claims
from mte_scripts.formats import LARGEST_SIZE
from mte_scripts.places import EXAMPLES
from mte_scripts.recording import calls, sites
from mte_scripts.reports import flames
from mte_scripts.tables import figures, site_costs

HERE = os.path.dirname(os.path.realpath(__file__))
FILES = {"who.txt", "who.svg", "who_lost.svg", "who.speedscope.json"}
DEEP = 128  # calls of a stack that are kept
STRINGS = ("app", "main", "/src/app.c", "make", "xmalloc", "list")
IMPORTS = "scripts/mte_scripts/recording/imports"  # which read heaptrack's records


def heaptrack(events=()):
    """100 blocks of 72 bytes by make() at line 41, through xmalloc(); then, when all but one are freed, 10 of 1,025 bytes at line 50."""
    lines = ["v 10400 3", *(f"s {len(each):x} {each}" for each in STRINGS)]
    lines += [f"i {at:x} 1 {name:x} 3 {line:x}" for at, (name, line) in enumerate(((2, 9), (4, 41), (4, 50), (5, 7)), 1)]
    # stacks, each with its caller's: main; main, make:41; main, make:50; the last two with xmalloc inside
    lines += [f"t {place:x} {parent:x}" for place, parent in ((1, 0), (2, 1), (3, 1), (4, 2), (4, 3))]
    lines += ["a 48 4", "a 401 5", *["+ 0"] * 100, *["- 0"] * 99, *["+ 1"] * 10, *events, "# strings: 6"]
    return "".join(f"{line}\n" for line in lines)


class Sites(commands.Commands):
    @classmethod
    def setup_class(cls):
        checks.need("cc addr2line nm", "who requests the blocks that cost")
        super().setup_class()
        cls.program = checks.any_program(cls.place) or checks.PROGRAM
        if not os.access(cls.program, os.X_OK):
            pytest.skip("without a program and rustc: who requests the blocks that cost")
        cls.environment["MTE_TOOL"] = os.environ["MTE_TOOL"] = cls.program
        words = ["cc", "-O2", "-g", "-fno-builtin", "-fomit-frame-pointer", "-w", f"{HERE}/who_program.c", "-o", f"{cls.place}/program", "-pthread"]
        subprocess.run(words, check=True)
        with open(f"{HERE}/who_program.c", encoding="ascii") as file:
            cls.lines = {line.split("// ")[1].strip(): at for at, line in enumerate(file, 1) if re.search(r"// \w+$", line)}

    def tool(self, command, *texts):
        return subprocess.run([self.program, *command.split()], input="".join(texts).encode(), capture_output=True, check=True).stdout.decode()

    def least(self, lines):
        """What the first of all tables takes over these events."""
        return int(re.search("footprint (.*)", self.tool("fit --limit 32 --largest-class 1", "timeline\n", *(f"{line}\n" for line in lines)))[1])

    def tuned(self, folder, *words, **more):
        out = self.runs(0, "*", "tune_program", "--who", "--output", folder, *words, **more)
        expect(f"{words}: the files", set(os.listdir(self.path(folder))) >= FILES, os.listdir(self.path(folder)))
        shown = json.loads(self.read(f"{folder}/who.speedscope.json"))
        first, lost = shown["profiles"]
        footprint = int(re.search("\nfootprint (.*)", self.read(f"{folder}/fitted.fit"))[1])
        expect(f"{words}: the flame graph is of the footprint", first["endValue"] == sum(first["weights"]) == footprint, first["endValue"], footprint)
        expect(f"{words}: of its bytes some are lost", 0 < lost["endValue"] < first["endValue"])
        self.check_page(self.read(f"{folder}/report.html"), self.read(f"{folder}/who.svg"))
        return out, self.read(f"{folder}/who.txt"), [frame["name"] for frame in shown["shared"]["frames"]], first

    def check_page(self, page, picture):
        expect("the page has the places and the pictures", 'id="who"' in page and page.count("<figcaption>Bytes by the calls") == 2)
        expect("neither has a script", "<script" not in page and "<script" not in picture)
        for text in re.findall(r"<svg[^>]*>\n<g>.*?</svg>", page + picture, re.S):
            width = float(re.search(r'viewBox="0 0 (\d+)', text)[1])
            ends = [float(x) + float(wide) for x, wide in re.findall(r'<rect x="([\d.]+)" y="\d+" width="([\d.]+)" height="16"', text)]
            expect("no box leaves its picture", all(end <= width + 0.5 for end in ends), max(ends, default=0), width)

    def test_program(self):
        out, text, frames, first = self.tuned("own", "./program", "200")
        said, rows = " ".join(text.split()), {row.split()[-2]: row.split() for row in text.splitlines() if row.endswith(")")}
        for name, taken, blocks, size in (("nodes", 200, 200, 1064), ("edges", 800, 800, 72), ("deep", 1, 1, 2000), ("other", 1, 1, 9000)):
            row = rows.get(f"who_program.c:{self.lines[name]}", [])
            expect(f"{name}: its blocks and their size", row[5:7] == [f"{blocks:,}", f"{size:,}"], row, text)
        row = rows.get(f"who_program.c:{self.lines['grow']}", [])
        expect("a realloc is of its call", row[-2:-1] == [f"who_program.c:{self.lines['grow']}"], row, text)
        expect("aligned: the calls go on through a function that aligns its stack", f"who_program.c:{self.lines['aligned']}" in rows, text)
        expect("what hands on is no place", "(xmalloc)" not in text and "(keep)" not in text)
        stacks = [[frames[frame] for frame in stack] for stack in first["samples"]]
        deep = next(stack for stack in stacks if "2,000 bytes" in stack)
        expect("a recursion: each call", sum("(deep)" in frame for frame in deep) == 91, deep)
        for stack in stacks:
            in_main = sum("(main)" in frame for frame in stack)
            expect("each stack of the program begins where it does", in_main == (not any("(other)" in frame for frame in stack)) or "libc" in stack[-2], stack)
        turns = {f"who_program.c:{self.lines[name]} (in_turn)": 0 for name in ("odd", "even")}
        for stack, weight in zip(stacks, first["weights"]):
            turns.update({frame: turns[frame] + weight for frame in stack if frame in turns})
        expect("two calls in turn: each has its half", len(set(turns.values())) == 1 and min(turns.values()) >= 10 * 320, turns)
        # by hand: 200 of 1,064, 800 of 72, 20 of 304, one each of 2,000, 3,001, 6,400 and 9,000; then 10 of 1,025 beside the first one of 1,064
        base = ["1064"] * 200 + ["72"] * 800 + ["304"] * 20 + ["2000", "3001", "6400", "9000"] + ["-9000", "-6400", "-3001", "-2000", *["-304"] * 20, *["-72"] * 800, *["-1064"] * 199]
        for name, size in (("nodes", 1064), ("edges", 72)):
            smaller = [line.replace(str(size), str(size - 8)) for line in base]
            saved = (self.least([*base, *["1025"] * 10]) - self.least([*smaller, *["1025"] * 10])) / 1024
            found = re.search(rf"who_program.c:{self.lines[name]} \({name}\) requests {size:,} bytes, [\d,]+ live at the peak of their class, in blocks of "
                              rf"[\d,]+ bytes; 8 bytes fewer and the table of a new fit takes ([\d.,]+) KiB less\.", said)
            expect(f"{name}: what 8 bytes fewer save", found and abs(float(found[1].replace(",", "")) - saved) < 0.1, saved, said)
            default = open(os.path.join(EXAMPLES, "scudo.classes"), encoding="ascii").read()
            size -= int(re.search(rf"\({name}\) requests.*?With Scudo's default its blocks are of [\d,]+, and (\d+) byte", said)[1])
            smaller = [line.replace(line.lstrip("-"), str(size)) if line.lstrip("-") == str({"nodes": 1064, "edges": 72}[name]) else line for line in base]
            taken = [int(self.tool("footprint", default, "timeline\n", *(f"{line}\n" for line in [*lines, *["1025"] * 10])).split()[1]) for lines in (base, smaller)]
            expect(f"{name}: what Scudo's default takes less", f"fewer take {claims.saving(taken[0] - taken[1])} less." in said, taken, said)
        expect("the summary says the first", "8 bytes fewer and the table of a new fit takes" in " ".join(out.split()))
        expect("each says what it is of", "of the tables of at most 32 classes, all multiples of 16 bytes" in said and "program.timeline" in said and "`check-fit` says `optimal` of both" in said)
        plain = self.runs(0, "timeline\n*", "profile_program", "--timeline", "--as-scudo", "./program", "200")
        expect("the timeline is as without stacks", plain == self.read("own/program.timeline"))

    def test_headers(self):
        """The file of a function that is inline in a header, and was not inlined: right, or it is said that it may be wrong."""
        self.write("pool.h", "template <class T> struct Pool {\n    __attribute__((noinline)) T *make() { return new T; }\n};\n")
        self.write("pool.cpp", '#include "pool.h"\nint main() {\n    Pool<long> pool;\n    return !pool.make();\n}\n')
        for version in (4, 5):
            path = self.path(f"pool{version}")
            if subprocess.run(["c++", "-O2", f"-gdwarf-{version}", "pool.cpp", "-o", path], cwd=self.place).returncode:
                return checks.skip("without a C++ compiler: functions of headers")
            place = next(place for place, _, name in calls.symbols(path) if name == "Pool<long>::make")
            tools = self.path(f"tools{version}")
            os.mkdir(tools)
            for name in ("addr2line", "nm", "readelf"):
                os.symlink(shutil.which(name), os.path.join(tools, name))
            for folders in (os.environ["PATH"], tools):
                is_sure = version == 4 or bool(shutil.which("llvm-addr2line", path=folders))
                names = calls.Names([sites.Module(1, 4096, 1 << 40, 4096, path)])
                with mock.patch.dict(os.environ, PATH=folders):
                    names.learn([(1, place + 4096 + 1)])
                [frame] = names.frames[1, place + 4096 + 1]
                expect(f"DWARF {version}, {folders}: the function", (frame.function, frame.line) == ("Pool<long>::make", 2), frame)
                expect(f"DWARF {version}, {folders}: the file", not is_sure or os.path.basename(frame.file) == "pool.h", frame)
                expect(f"DWARF {version}, {folders}: what is said", names.unsure == (set() if is_sure else {"pool5"}), names.unsure)

    def test_heaptrack(self):
        checks.need(IMPORTS, "who requests the blocks of a record of heaptrack")
        self.write("app.heaptrack", heaptrack())
        out, text, frames, _ = self.tuned("imported", "--read", "app.heaptrack")
        said = " ".join(text.split())
        # 72 bytes have blocks of 96, 1,025 of 1,056
        expect("the first place", "10.3 KiB 52.4% 0.1 KiB 10 1,025 app.c:50 (make)" in said, said)
        expect("the second place", "9.4 KiB 47.6% 0.8 KiB 100 72 app.c:41 (make)" in said, said)
        expect("fewer bytes", "app.c:41 (make) requests 72 bytes, 100 live at the peak of their class, in blocks of 96 bytes; 8 bytes fewer and the table "
               "of a new fit takes 1.6 KiB less." in said, said)
        expect("the calls", {"app.c:9 (main)", "app.c:7 (xmalloc)", "1,025 bytes"} <= set(frames), frames)
        with open(self.path("packed"), "wb") as file:
            subprocess.run(["gzip", "-c", self.path("app.heaptrack")], stdout=file, check=True)
        expect("the same packed", self.tuned("packed.tuned", "--read", "packed")[1].split("Each of these")[0] == text.split("Each of these")[0])

    def test_refused_records(self):
        checks.need(IMPORTS, "what is no record of heaptrack")
        self.write("some.profile", "16 1\n")
        self.write("damaged", heaptrack(["+ 99"]))
        self.write("raw", "v 10400 3\nx 3 app\nt 1 0\n+ 48 1 7f00\n# strings: 0\n")
        self.write("cut", heaptrack()[:-3])
        self.write("circle", heaptrack().replace("t 4 3\n", "t 4 9\n"))
        self.write("signed", heaptrack().replace("t 4 3\n", "t 4 -1\n"))
        for file, why in (("some.profile", "is no record of heaptrack"), ("damaged", "is it damaged?"), ("raw", "heaptrack_interpret"),
                          ("cut", "it was cut off"), ("circle", "is it damaged?"), ("signed", "is none of heaptrack's")):
            self.runs(2, "", "tune_program", "--who", "--output", "refused", "--read", file)
            expect(f"{file}: {why}", why in self.err, self.err)
        expect("nothing is left", not os.path.exists(self.path("refused")))

    def test_refused_words(self):
        self.runs(2, "", "tune_program", "--who", "--all", "./program")
        self.runs(2, "", "profile_program", "--stacks", "file", "./program")
        self.runs(2, "", "profile_program", "--timeline", "--stacks", "file", "--import", "raw")

    def test_wrapper(self):
        """Behind a wrapper the program with nearly all requests counts, and where none has them, --only is asked for."""
        self.write("wrapper", "#!/bin/sh\n./program 500 </dev/null\n", 0o755)
        out = self.runs(0, "program of wrapper, predicted (--verify SCUDO measures it): *", "tune_program", "--output", "wrapped", "./wrapper", take={"stdin": subprocess.DEVNULL})
        self.says("program makes nearly all requests", "as with --only program")
        plain = self.runs(0, "timeline\n*", "profile_program", "--timeline", "--as-scudo", "--only", "program", "./program", "500")
        expect("a wrapper: what is tuned is the program's", self.read("wrapped/program.timeline") == plain)
        self.runs(3, "", "tune_program", "--output", "piped", "./wrapper", given="x")
        self.says("take --only program", "standard input can't be read again")
        self.write("two", "#!/bin/sh\n./program 500\n./other 500\n", 0o755)
        subprocess.run(["cp", self.path("program"), self.path("other")], check=True)
        self.runs(3, "", "tune_program", "--output", "both", "./two", take={"stdin": subprocess.DEVNULL})
        requests = {name: int(number.replace(",", "")) for name, number in re.findall(r"(program|other): ([\d,]+) requests in 2 processes", self.err)}
        expect("two programs: both are named with their requests", "take --only NAME" in self.err and len(requests) == 2 and
               min(requests.values()) > 3000, self.err)
        self.runs(0, "other of two, predicted (--verify SCUDO measures it): *", "tune_program", "--output", "one", "--only", "other", "./two", take={"stdin": subprocess.DEVNULL})
        expect("what is asked for leaves no folder", not {"both", "piped"} & set(os.listdir(self.place)), os.listdir(self.place))

    def test_at_once(self):
        """What has to fail does so before the program is run, and before there is a folder."""
        profile = self.write("four.profile", "16 3\n40 1\n")
        self.write("noted", "#!/bin/sh\necho > was_run\n", 0o755)
        for other in ("/bin/false", "/bin/true", self.path("nowhere")):
            self.runs(3, "", "tune_program", "./noted", MTE_TOOL=other)
            self.says("there is no program to tune with, so nothing was run")
            self.runs(3, "", "tune_program", "--read", profile, MTE_TOOL=other)
            self.says("there is no program to tune with, so nothing was made")
        self.runs(3, "", "tune_program", "./noted", CC="no_such_compiler", XDG_CACHE_HOME=self.path("empty"))
        is_one = self.err.count("\n") == 1 and "apt install gcc libc6-dev" in self.err
        expect("without a compiler one line names the packages", is_one, self.err)
        self.runs(3, "", "tune_program", "./nowhere")
        expect("without the program one line says so", self.err == "tune_program: there is no program ./nowhere\n", self.err)
        left = {"noted.tuned", "four.tuned", "nowhere.tuned", "was_run"} & set(os.listdir(self.place))
        expect("what has nothing to tune with leaves no folder", not left, left)
        os.mkdir(self.path("noted.tuned"))
        self.runs(3, "", "tune_program", "--output", "noted.tuned", "./noted")
        self.write("noted.tuned/program.timeline", "timeline\n16\n")
        self.runs(3, "", "tune_program", "--output", "noted.tuned", "./noted")
        self.says("--read noted.tuned/program.timeline --output ANOTHER")
        expect("nothing was run", not os.path.exists(self.path("was_run")))

    def test_numbers(self):
        """A folder that nobody named gets a number where its name is taken, as with --who after a run without."""
        shutil.copy(self.path("program"), self.path("job"))
        for words, folder in (["./job"], "job.tuned"), (["--who", "./job"], "job.tuned.2"), (["--who", "./job"], "job.tuned.3"):
            self.runs(0, "*", "tune_program", *words, take={"stdin": subprocess.DEVNULL})
            said = f"job.tuned is there already, so this one is {folder}" in self.err
            found = os.path.exists(self.path(folder, "summary.txt")), os.path.exists(self.path(folder, "who.txt")), said
            expect(f"{words}: what is in {folder}", found == (True, "--who" in words, folder != "job.tuned"), found, self.err)

    def test_drawn(self):
        """Runs that are drawn: the blocks of each class at the moment of its most, counted one event after the other."""
        for seed in range(20):
            draw = random.Random(seed)
            sizes, live, events = array("I", [draw.choice((1, 16, 17, 40, 200, 1000, LARGEST_SIZE, LARGEST_SIZE + 1)) for _ in range(9)]), [], array("I")
            for _ in range(draw.randrange(20, 200)):
                if live and draw.random() < 0.45:
                    events.append(live.pop(draw.randrange(len(live))) << 1 | 1)
                else:
                    live.append(draw.randrange(len(sizes)))
                    events.append(live[-1] << 1)
            stacks = {site: (calls.Frame(f"f{site % 5}", "a.c", site + 1),) for site in range(9)}
            run = site_costs.Run(events, sizes, lambda wanted, stacks=stacks: {site: stacks[site] for site in wanted})
            timed = figures.over_time("timeline", site_costs.timeline_of(run, {}), True, draw.choice((2, 4, 32)), 1)
            now, most, best = [0] * 9, {}, {}
            for event in events:
                now[event >> 1] += -1 if event & 1 else 1
                for block in timed.fit.classes:
                    mine = {s: n for s, n in enumerate(now) if n and sizes[s] <= LARGEST_SIZE and figures.block_of(timed.fit.classes, sizes[s]) == 16 * block}
                    if sum(mine.values()) > most.get(block, 0):
                        most[block], best[block] = sum(mine.values()), mine
            found = site_costs.SiteCosts(run, timed)
            expect(f"drawn {seed}: how many blocks each class has", sum(most[block] * block * 16 for block in most) == found.footprint)
            expect(f"drawn {seed}: the places take all of it", sum(part.bytes_taken() for _, parts in found.places() for part in parts) == found.footprint)
            for part in found.parts:
                expect(f"drawn {seed}: a class of {part.block}", figures.block_of(timed.fit.classes, sizes[part.site]) == part.block and part.blocks > 0)

    def test_flames(self):
        picture = flames.svg("a < b", [(("main", "x"), 75), (("main", "y"), 25)])
        expect("a box has its share", "x: 75 bytes, 75.0%" in picture and "a &lt; b: 100 bytes" in picture, picture)
        rows = {name: (row, left, wide) for row, left, wide, name, _ in flames.boxes([(("main", "y"), 25), (("main", "x"), 75)], "all", 100)}
        expect("the larger one is first", rows == {"all": (0, 0, 100), "main": (1, 0, 100), "x": (2, 0, 75), "y": (2, 75, 25)}, rows)

    def recorded(self, option):
        """The stacks of the drawn requests by the recorder, and by the program itself."""
        subprocess.run(["cc", *option.split(), "-w", f"{HERE}/who_stacks.c", "-o", f"{self.place}/stacks"], check=True)
        self.runs(0, "timeline\n*", "profile_program", "--timeline", "--stacks", "stacks.sites", "./stacks", "stacks.own")
        with open(self.path("stacks.sites"), "rb") as file, open(self.path("stacks.own"), "rb") as other:
            record, words = sites.parse_sites(file.read()), sites.words_of("q", other.read())
        made = [record.stacks[event >> 1][1] for event in record.events if not event & 1 and 1000 <= record.sizes[event >> 1] < 1100]
        own, at = [], 0
        while at < len(words):
            own.append([address - 1 for address in words[at + 1 : at + 1 + words[at]]])
            at += 1 + words[at]
        return made, own

    def test_stacks(self):
        """The stacks of drawn calls are those of glibc's backtrace, as deep as they are kept."""
        for option in ("-O0", "-O2", "-O2 -fno-omit-frame-pointer"):
            made, own = self.recorded(option)
            expect(f"{option}: each request has its stack", len(made) == len(own) > 5000, len(made), len(own))
            # the first address of both is of the same function
            wrong = [(one, other) for one, other in zip(made, own) if list(one[1:]) != other[1:DEEP]]
            expect(f"{option}: the stacks are the same", not wrong and max(map(len, own)) > DEEP, wrong[:1])

    def test_record(self):
        """What is cut off or was not recorded is refused."""
        self.runs(0, "timeline\n*", "profile_program", "--timeline", "--stacks", "stacks", "./program", "3")
        with open(self.path("stacks"), "rb") as file:
            data = file.read()
        found = sites.parse_sites(data)
        expect("a record: its events", len(found.events) == self.out.count("\n") - 1 and max(found.events) >> 1 < len(found.sizes) == len(found.stacks))
        for cut in (b"", data[:20], data[:-1], data + b"\0"):
            try:
                sites.parse_sites(cut)
                checks.fail(f"a record of {len(cut)} bytes is taken")
            except Exception as refused:
                expect(f"a record of {len(cut)} bytes", getattr(refused, "status", 0) == 3, refused)


class OwnStacks(commands.Commands):
    """Programs that change to stacks of their own."""

    @classmethod
    def setup_class(cls):
        checks.need("cc", "requests on stacks of a program's own")
        super().setup_class()
        source = f"{HERE}/who_own_stacks.c"
        subprocess.run(["cc", "-O1", "-w", "-fno-builtin", source, "-o", f"{cls.place}/stacks", "-pthread"], check=True)

    def stacks_of(self, word):
        """How many addresses each stack of a request of 3,333 bytes has."""
        self.ends(0, "ok", "./stacks", word)
        self.runs(0, "timeline\n*", "profile_program", "--timeline", "--stacks", "sites", "./stacks", word)
        expect(f"{word}: it ends as alone", "ok" in self.err.split("\n") and "ended with status" not in self.err, self.err)
        with open(self.path("sites"), "rb") as file:
            record = sites.parse_sites(file.read())
        made = [event >> 1 for event in record.events if not event & 1 and record.sizes[event >> 1] == 3333]
        expect(f"{word}: its requests", len(made) >= 60 and self.out.split("\n").count("3333") == len(made), len(made))
        return [len(record.stacks[site][1]) for site in made]

    def test_ends_as_alone(self):
        """Nothing is read beside a stack."""
        for word in ("ucontext", "switch", "signals", "clone", "shorter"):
            for _ in range(3):
                depths = self.stacks_of(word)
                expect(f"{word}: each has its first call", min(depths) >= 1, depths)

    def test_threads(self):
        """The stacks of threads go up to their start."""
        depths = self.stacks_of("threads")
        expect("threads: their whole stacks", min(depths) >= 42, depths)
