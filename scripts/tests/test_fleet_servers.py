"""Tests the tables of examples/fleet, on servers of its own on the loopback address, and the nightly report."""

import collections
import concurrent.futures
import contextlib
import datetime
import functools
import io
import itertools
import os
import random
import re
import shutil
import socket
import subprocess
import sys
import time

import checks
import fleet_month
import postgresql
from checks import expect, skip
from mte_scripts.fleet import row_reader
from mte_scripts.places import ROOT
from server_runs import free_ports, read, run, script, run_server

FLEET = os.path.join(ROOT, "examples/fleet")
ROWS = 20_000  # of the fleet
ZOOKEEPER = "/usr/share/java/zookeeper.jar"
EARLIER = "program, build, machine, day, weight, moment, size, count"  # the columns of an earlier release


def write(text, *path):
    with open(os.path.join(*path), "w") as file:
        file.write(text)
    return os.path.join(*path)


def arrays_of(lines, **more):
    return script("fleet_profiles", "--arrays", given="".join(lines), **more)


def fleet(work):
    """The rows of a fleet, and what fleet_profiles makes of them: the sums here are of their definition."""
    rows = run([os.path.join(FLEET, "make_rows"), str(ROWS)])
    machines, sums = set(), {}
    for line in rows.splitlines():
        program, _, machine, day, _, weight, _, size, count = line.split("\t")
        machines.add(machine)
        profile = sums.setdefault(f"{program}/{day}.profile", collections.Counter())
        profile[int(size)] += int(weight) * int(count)
    name_of = lambda size: "large" if size == 16369 else size
    text_of = lambda counts: "".join(f"{name_of(size)} {count}\n" for size, count in sorted(counts.items()))
    wanted = {name: text_of(counts) for name, counts in sums.items()}
    merged = profiles_of(work, rows)
    expect("fleet_profiles of a fleet", merged == wanted, merged.keys(), wanted.keys())
    is_large = len(rows.splitlines()) >= ROWS and len(machines) > 100 and len(wanted) == 9
    expect("the fleet's rows", is_large, len(machines))
    return rows, merged


def profiles_of(work, rows):
    """The files that fleet_profiles makes of rows, with their texts."""
    folder = os.path.join(work, "profiles")
    script("fleet_profiles", "--output", folder, given=rows)
    files = [os.path.join(where, file) for where, _, names in os.walk(folder) for file in names]
    found = {os.path.relpath(file, folder): read(file) for file in files}
    shutil.rmtree(folder)
    return found


class DocumentCommands:
    """A folder in which the documents' commands find what they name: LOAD loads rows.tsv, QUERY makes sums.tsv."""

    def __init__(self, work, load, query, **how):
        self.load, self.query, self.how = load, query, {**how, "cwd": os.path.join(work, "commands")}
        shutil.rmtree(self.how["cwd"], ignore_errors=True)
        os.mkdir(self.how["cwd"])
        for linked in ("examples", "scripts"):
            os.symlink(os.path.join(ROOT, linked), os.path.join(self.how["cwd"], linked))

    def load_rows(self, lines):
        write("".join(lines), self.how["cwd"], "rows.tsv")
        run(["bash", "-e", "-o", "pipefail", "-c", self.load], **self.how)

    def profiles(self):
        """What the files of the sums are."""
        run(["bash", "-e", "-o", "pipefail", "-c", self.query], **self.how)
        return profiles_of(self.how["cwd"], read(os.path.join(self.how["cwd"], "sums.tsv")))

    def try_loads(self, what, merged, *cases):
        """Loads rows; after each it is said whether all sums are right, or None where that is not asked."""
        for said, loaded, wanted in cases:
            self.load_rows(loaded)
            got = self.profiles()
            is_right = wanted is None or (got == merged) == wanted
            expect(f"{what}, after {said}: the bytes of fleet_profiles, or not", is_right, got.keys())


def number_rows(lines, number):
    """Rows with another number of their loads, and counts of 1 in the place of some."""
    fields = [line.split("\t") for line in lines]
    ends = (each[8] if at % 2 == 0 else "1\n" for at, each in enumerate(fields))
    return ["\t".join([*each[:4], str(number), *each[5:8], end]) for each, end in zip(fields, ends)]


def sql(name, *words):
    """The words that run one of the files of examples/fleet."""
    return ["psql", "-v", "ON_ERROR_STOP=1", "-q", *words, "-f", os.path.join(FLEET, f"postgresql{name}.sql")]


def ask_sql(how, query, *words, **more):
    """The rows that a query prints."""
    return run(["psql", "-v", "ON_ERROR_STOP=1", "-qAt", "-F", "\t", "-c", query, *words], **how, **more)


def try_postgresql(work, rows, merged):
    """The load as it is written, over and over: the table always has what merge_profiles makes of the machines."""
    lines = rows.splitlines(True)
    half, older = len(lines) // 2, number_rows(lines, 1)
    with postgresql.run_server() as server:
        how = {"env": {**os.environ, **server}}
        commands = DocumentCommands(work, *postgresql.load().split(" && "), **how)
        commands.try_loads(
            "PostgreSQL", merged, ("half of the rows, a load of them cut", lines[:half], False),
            ("older loads", older, None), ("the other half", lines[half:], True), ("all once more", lines, True),
            ("cut loads once more", lines[:half], True), ("older loads with other counts", older, True),
        )
        before = run(sql("_sums"), **how)
        wrong = arrays_of(lines[:5]).replace(",16]", ",16370]").replace("[6,", "[16370,")
        run(sql(""), given=wrong, status=3, says=["loads_sizes_check"], **how)
        expect("PostgreSQL: a load that is refused changes the table", run(sql("_sums"), **how) == before)
        # rows of the view, in no order, as fleet_regret has them
        every = ask_sql(how, "select * from profiles order by count")
        expect("PostgreSQL: the rows of the view", profiles_of(work, every) == merged)
        plan = ask_sql(how, "set enable_seqscan = off; explain select * from profiles where day = '2026-01-01'")
        expect("PostgreSQL: the index by day", "loads_by_day" in plan and "Filter" not in plan, plan)
        try_earlier_release(work, lines, merged, how)


def try_earlier_release(work, lines, merged, how):
    """The table of an earlier release, in which a file stood that had each load twice: a load is refused with what to
    do, and that helps."""
    fields = [line.split("\t") for line in lines]
    unnumbered = "".join("\t".join([*each[:4], *each[5:]]) for each in fields)
    types = "program text, build text, machine text, day date, weight bigint, moment smallint, size smallint"
    ask_sql(how, "drop view profiles; truncate loads; create table profiles "
                 f"({types}, count bigint, load bigint default 1)")
    ask_sql(how, f"copy profiles ({EARLIER}) from stdin", given=unnumbered * 2)
    query = f"select {EARLIER} from profiles order by load, program, build, machine, day, moment, size"
    run(sql(""), status=3, says=["has the rows of an earlier release", query, "rename to profiles_before"], **how)
    rows = ask_sql(how, query)
    ask_sql(how, "alter table profiles rename to profiles_before")
    arrays = arrays_of([rows], says=["loads whose rows came twice and in no order"])
    run(sql(""), given=arrays, **how)
    sums = run(sql("_sums"), **how)
    expect("PostgreSQL: the rows of an earlier release", profiles_of(work, sums) == merged)


def try_month(work, is_numbered):
    """What came of a month, one half of a week after the other."""
    month, what = fleet_month.Month(is_numbered), f"PostgreSQL, a month, numbers: {is_numbered}"
    with postgresql.run_server() as server:
        commands = DocumentCommands(work, *postgresql.load().split(" && "), env={**os.environ, **server})
        for text in month.turns(4):
            commands.load_rows([text])
        month.expect_profiles(what, commands.profiles())
        if is_numbered:
            load_at_once(commands, month)
            month.expect_profiles(f"{what}, loads at once", commands.profiles())


def load_at_once(commands, month):
    """All of the month by several clients at once, in several orders, into an empty table: they neither count twice nor
    wait for ever."""
    run(["psql", "-q", "-c", "truncate loads"], **commands.how)
    lines, clients = month.text().splitlines(True), []
    half = len(lines) // 2
    for at, order in enumerate((lines, lines[::-1], [*lines[half:], *lines[:half]], number_rows(lines, 5))):
        write("".join(order), commands.how["cwd"], f"rows{at}.tsv")
        words = ["bash", "-o", "pipefail", "-c", commands.load.replace("rows.tsv", f"rows{at}.tsv")]
        clients.append(subprocess.Popen(words, stderr=subprocess.PIPE, text=True, **commands.how))
    for at, client in enumerate(clients):
        _, said = client.communicate(timeout=120)
        expect(f"PostgreSQL: client {at}", client.returncode == 0, said)


def draw_turns(chosen, number):
    """Rows of so many programs as they may arrive from two hosts in turns: in halves, again, cut in a number, late."""
    turns = [([], []) for _ in range(4)]
    for at, machine in itertools.product(range(number), range(2)):
        for load in chosen.sample(range(1, 9), chosen.randrange(1, 4)):
            cells = [(chosen.randrange(2), size, chosen.randrange(1, 10**6)) for size in chosen.sample(range(500), 8)]
            for _ in range(chosen.randrange(1, 5)):
                weight = 1 + machine + (chosen.randrange(9) == 0)
                own = chosen.choice((cells[:4], cells[4:], chosen.sample(cells, chosen.randrange(1, 9))))
                if chosen.randrange(3) == 0 and own[-1][2] > 9:
                    own = [*own[:-1], (*own[-1][:2], own[-1][2] // 10)]
                begin = f"program{at}\t1\thost{machine}\t2026-01-05\t{load}\t{weight}\t"
                chosen.choice(chosen.choice(turns)).extend(begin + "\t".join(map(str, cell)) + "\n" for cell in own)
    return turns


def sums_by_definition(lines):
    """Of each key the rows of the greatest load and weight, of these the greatest counts; summed over the machines."""
    best, sums = {}, collections.Counter()
    for program, _, machine, _, *words in (line.split() for line in lines):
        load, weight, moment, size, count = map(int, words)
        cells = best.setdefault((program, machine), {}).setdefault((load, weight), {})
        cells[moment, size] = max(count, cells.get((moment, size), 0))
    for (program, _), loads in best.items():
        sums.update({(program, *cell): max(loads)[1] * count for cell, count in loads[max(loads)].items()})
    return sums


class Store(collections.namedtuple("Store", "name load others sums rows")):
    """A database: how it loads what a host sends, what is done beside that, and what it prints of sums and rows."""

    def take(self, *hosts):
        """All that these hosts send, at once."""
        loads = [functools.partial(self.load, at, arrays_of(lines)) for at, lines in enumerate(hosts)]
        with concurrent.futures.ThreadPoolExecutor() as pool:
            list(pool.map(lambda work: work(), [*loads, *self.others]))

    def try_orders(self, number, seed):
        """Turn by turn the sums of the database and of the files are those of the definition."""
        came = []
        for at, hosts in enumerate(draw_turns(random.Random(seed), number)):
            self.take(*hosts)
            came += [line for lines in hosts for line in lines]
            files, store = collections.Counter(), row_reader.Store()
            store.read_rows(io.BytesIO("".join(came).encode()), "-")
            for key, load in store.items():
                files.update({(key.program, *cell): load.weight * count for cell, count in load.cells().items()})
            words = [line.split("\t") for line in self.sums().splitlines()]
            got = {(each[0], int(each[6]), int(each[7])): int(each[8]) for each in words}
            is_right = got == sums_by_definition(came) == files
            expect(f"{self.name}, turn {at}: {number} orders", is_right, len(words))

    def try_names(self, number, seed):
        """Names come out as they went in, whatever a database reads as an escape."""
        chosen, letters = random.Random(seed), "\\\\\\\\Nntbx0.'\"`,;%{}[] /eé\x85\u2028\U0001f600"
        drawn = ["".join(chosen.choices(letters, k=chosen.randrange(1, 12))) for _ in range(number)]
        known = ("\\N", "\\.", "C:\\new", "x\\t1\\n", "NULL")
        names = dict.fromkeys(name for name in (*known, *drawn) if name.strip())
        lines = [f"{name}\t{name}\t{name}\t2026-01-05\t1\t1\t0\t16\t{at + 1}\n" for at, name in enumerate(names)]
        self.take(lines)
        got = [f"{line}\n" for line in self.rows().split("\n")[:-1]]
        expect(f"{self.name}: {len(lines)} names", sorted(got) == sorted(lines))
        sums = [line.split("\t")[:2] for line in self.sums().split("\n")[:-1]]
        expect(f"{self.name}: their sums", sorted(sums) == sorted(line.split("\t")[:2] for line in lines))


def store_in_postgresql(server):
    how = {"env": {**os.environ, **server}}
    run(sql(""), **how)
    load = lambda _, given: run(sql(""), given, **how)
    return Store("PostgreSQL", load, [], lambda: run(sql("_sums"), **how), lambda: ask_sql(how, "table profiles"))


def try_retention():
    """What is older goes into sums that are those of the loads; it is summed once, and goes in its turn. Roles may do
    what they are for."""
    with postgresql.run_server() as server:
        how = {"env": {**os.environ, **server}}
        ask, day = functools.partial(ask_sql, how), lambda number: f"2026-03-{number:02d}"
        loaded = lambda days, counts: [
            f"p\t{at % 2}\tm{at}\t{day(number)}\t7\t{at + 1}\t{moment}\t{size}\t{count + at}\n"
            for number in days for at in range(4) for moment, size, count in counts
        ]
        load = lambda rows: run(sql(""), given=arrays_of(rows), **how)
        kept = ["-v", "days=5", "-v", "sum_days=20", "-v"]
        retain = lambda today: run(sql("_retention", *kept, f"today={day(today)}"), **how)
        load(loaded(range(1, 11), [(0, 16, 100), (0, 24, 5), (1, 16, 2**40)]))
        before = run(sql("_sums"), **how)
        expect("the first night says nothing", retain(10) == "")
        days = ask("select min(day), count(distinct day) from loads")
        expect("loads of five days stay", days == f"{day(5)}\t6\n", days)
        sums = ask("select * from profiles_of_sums union all "
                   "select program, build, 'all', day, 0, 1, moment, size, sum(weight * count) from profiles "
                   "group by program, build, day, moment, size order by 1, 2, 4, 7, 8")
        expect("sums and loads are what all were", sums == before, sums, before)
        expect("of how many machines", ask("select distinct machines from day_sums") == "2\n")
        is_same = retain(10) == "" and ask("select count(*) from day_sums") == "8\n"
        expect("the same night again changes nothing", is_same)
        load(loaded([2], [(0, 16, 1)]))
        dropped = "4 loads came after their day was summed, and are dropped\n"
        expect("what comes after its sum is dropped, and said", retain(10) == dropped)
        stays = ask("table profiles_of_sums").splitlines()
        expect("its sum stays", len(stays) == 4 * 2 * 3 and {*stays} <= {*before.splitlines()}, stays)
        expect("and no load of it", ask(f"select count(*) from loads where day < '{day(5)}'") == "0\n")
        retain(25)
        days = ask("select min(day), max(day) from day_sums")
        expect("sums go in their turn", days == f"{day(5)}\t{day(10)}\n", days)
        try_roles(how, arrays_of(loaded([20, 21], [(0, 16, 9)])))


def try_roles(how, arrays):
    run(sql("_roles"), **how)
    run(sql("_roles"), **how)  # it may be run again
    ask_sql(how, "create role one login in role fleet_loader; create role two login in role fleet_reader")
    one, two = ({"env": {**how["env"], "PGUSER": user}} for user in ("one", "two"))
    copy = "\\copy arrivals from pstdin"
    for what, given in (("loads", arrays), ("the same again", arrays), ("a cut one", arrays.splitlines(True)[0])):
        ask_sql(one, copy, given=given)
        counted = ask_sql(how, "select count(*), sum(counts[1]) from loads where day > '2026-03-19'")
        expect(f"a loader inserts {what}", counted == "8\t84\n", counted)
    for query in ("select * from loads", "table arrivals", "delete from loads", "update loads set load = 1",
                  "drop table loads", "table day_sums", "insert into loads select * from loads"):
        ask_sql(one, query, status=1, says=["must be owner" if "drop" in query else "permission denied"])
    expect("a reader reads", ask_sql(two, "select count(*) from profiles where day > '2026-03-19'") == "8\n")
    ask_sql(two, "table profiles_of_sums")
    ask_sql(two, copy, given=arrays, status=1, says=["permission denied"])
    ask_sql(two, "delete from loads", status=1, says=["permission denied"])


# where nothing is built, the engines are in this user's cache
CACHE = os.environ.get("XDG_CACHE_HOME") or os.path.expanduser("~/.cache")
ENGINES_CACHE = {"XDG_CACHE_HOME": CACHE} if checks.ENGINES else {}


def try_nightly(work):
    """examples/fleet/nightly as cron runs it: by sh, with cron's environment, from an entry of one line; the mail goes
    into a file."""
    programs, sent = os.path.join(work, "programs"), os.path.join(work, "sent")
    os.mkdir(programs)
    mail = write(f'#!/bin/sh\nprintf "%s\\n" "$*" > "{sent}"\ncat >> "{sent}"\n', programs, "mail")
    os.chmod(mail, 0o755)
    yesterday, before = ((datetime.date.today() - datetime.timedelta(back)).isoformat() for back in (1, 2))
    rows = lambda day, hosts, *sizes: [
        f"p\t1\thost{at}\t{day}\t1\t1\t0\t{size}\t{50 + at}\n" for at in range(hosts) for size in sizes
    ]
    table = write("classes 8 14 100 189 220 1024\n", work, "in use.classes")
    hosts = write("".join(f"p\thost{at}\n" for at in range(8)), work, "hosts.tsv")
    entry = f"'{FLEET}/nightly' '{table}' 3 us@example.org {hosts}"
    expect("a crontab entry of one line", "\n" not in entry and "%" not in entry, entry)
    with postgresql.run_server() as server:
        path = f"{programs}:{os.path.dirname(sys.executable)}:/usr/bin:/bin"
        other = {name: value for name, value in os.environ.items() if name == "MTE_TOOL"}
        home = {"PATH": path, "SHELL": "/bin/sh", "HOME": work}
        how = {"cwd": "/", "env": {**home, **ENGINES_CACHE, **server, **other}}
        run(["/bin/sh", "-c", entry], status=3, **how)
        is_said = "status 3" in read(sent) and 'relation "profiles" does not exist' in read(sent)
        expect("a query that fails is mailed", is_said, read(sent))
        drift = "drift: the same machines were within it on " + before
        for what, given, says in (
            ("a good day", rows(before, 8, 100, 200) + rows(yesterday, 8, 100, 200), ""),
            ("a missing host", rows(yesterday, 7, 100, 200), "p: 1 of 8 machines did not come: host7"),
            ("drift", rows(yesterday, 8, 1000, 2000), drift),
        ):
            with contextlib.suppress(FileNotFoundError):
                os.remove(sent)
            if says:
                ask_sql(how, f"delete from loads where day = '{yesterday}'")
            run(sql(""), given=arrays_of(given), **how)
            run(["/bin/sh", "-c", entry], status=int(bool(says)), **how)
            said = read(sent) if os.path.exists(sent) else ""
            is_right = said.startswith(f"-s the fleet on {yesterday}: status 1 us@") if says else not said
            expect(f"{what}: a mail or none", is_right and says in " ".join(said.split()), said)


def neighbouring_ports(number):
    """So many free ports that differ in their last digit, which begins with 1, as in examples/fleet/README.md."""
    for port in range(9101, 60000, 10):
        with contextlib.suppress(OSError), contextlib.ExitStack() as stack:
            for at in range(number):
                stack.enter_context(socket.socket()).bind(("127.0.0.1", port + at))
            return [*range(port, port + number)]
    raise AssertionError(f"no {number} ports are free")


def clickhouse_commands(port, begin="for port in 9101 "):
    """The commands of examples/fleet/README.md that begin so, to the end of their block, for servers from this port."""
    block = re.search(rf"(?m)^    {re.escape(begin)}.*\n(?:    .*\n)+", read(os.path.join(FLEET, "README.md")))[0]
    return re.sub(r"\b910(?=[1-4]\b)", str(port // 10), block)


def load_and_sums(port):
    """The query by which the documents load rows, and that of the sums."""
    patterns = r"(insert into [^']* format TSV)", r'--query "\s*(select [^"]*)"'
    return [re.search(pattern, clickhouse_commands(port))[1] for pattern in patterns]


def clickhouse_server(folder, values, ports, has_replicas):
    """A server with this folder, as the documents have it: its command, port and log."""
    values = {"FOLDER": folder, **values, **dict(zip(("FIRST", "SECOND", "THIRD", "FOURTH"), ports))}
    copies = ("clickhouse_server.xml", "config.xml"), ("clickhouse_replicas.xml", "conf.d/replicas.xml")
    os.makedirs(os.path.join(folder, "conf.d"))
    for name, copy in copies[: 1 + has_replicas]:
        config = read(os.path.join(FLEET, name))
        for word, value in values.items():
            config = re.sub(rf"\b{word}\b(?=[/<])", str(value), config)
        write(config, folder, copy)
    shutil.copy(os.path.join(FLEET, "clickhouse_users.xml"), folder)
    return ["clickhouse-server", f"--config-file={folder}/config.xml"], values["TCP"], os.path.join(folder, "out")


@contextlib.contextmanager
def run_clickhouse(work, ports, zookeeper=None):
    """The servers; with a port of ZooKeeper two shards of two. A server can be stopped and run anew by its number."""
    with contextlib.ExitStack() as stack:
        running = []
        for number, (tcp, http, own) in enumerate(zip(ports, free_ports(len(ports)), free_ports(len(ports)))):
            values = {"HTTP": http, "TCP": tcp, "OWN": own, "ZOOKEEPER": zookeeper}
            values |= {"SHARD": number % 2 + 1, "REPLICA": f"server{number}"}
            folder = os.path.join(work, f"clickhouse{ports[0]}.{number}")
            words = clickhouse_server(folder, values, ports, zookeeper is not None)
            running.append((words, stack.enter_context(contextlib.ExitStack())))
            running[-1][1].enter_context(run_server(*words))
        yield running


def ask_clickhouse(port, query, *words, **more):
    client = ["clickhouse-client", "--host", "127.0.0.1", "--port", str(port), "--insert_distributed_sync", "1", *words]
    return run([*client, "--query", query], **more)


def try_clickhouse(work, rows, merged):
    ports, lines = neighbouring_ports(2), rows.splitlines(True)
    with run_clickhouse(work, ports):
        commands = DocumentCommands(work, clickhouse_commands(ports[0]), "true")
        half, older = len(lines) // 2, number_rows(lines, 2)
        commands.try_loads(
            "ClickHouse", merged, ("older loads", number_rows(lines, 1), False), ("all", lines, True),
            ("all once more", lines, True), ("cut and older loads", [*lines[:half], *older[half:]], True),
        )
        loads = len({tuple(line.split("\t")[:4]) for line in lines})
        query = "select uniqExact(machine, program, day, build) from arrivals_local"
        seen = [int(ask_clickhouse(port, query)) for port in ports]
        each_on_one = "ClickHouse: each load is on one server, and each server has some"
        expect(each_on_one, sum(seen) == loads and all(seen), seen)
        store = store_in_clickhouse(ports)
        for step in (
            lambda: month_in_clickhouse(commands), lambda: store.try_orders(60, 5), lambda: store.try_names(200, 5),
            lambda: try_earlier_clickhouse(ports[0], lines, merged, work),
        ):
            for port in ports:
                ask_clickhouse(port, "truncate table arrivals_local")
            step()


def month_in_clickhouse(commands):
    """A month, its files in two turns: those of each day, and what came late."""
    month = fleet_month.Month()
    for turn in (slice(1), slice(1, None)):
        commands.load_rows([text for texts in month.files.values() for text in texts[turn]])
    month.expect_profiles("ClickHouse, a month", commands.profiles())


COUNTED = "select program, build, machine, day, load, weight, moment, size, count from counted format TSVRaw"


def store_in_clickhouse(ports):
    """Loads on both servers, beside a compaction."""
    load, sums = load_and_sums(ports[0])
    client = lambda at, query, given="": ask_clickhouse(ports[at], query, given=given)
    compact, take = lambda: client(0, "optimize table arrivals_local final"), lambda at, given: client(at, load, given)
    return Store("ClickHouse", take, [compact], lambda: client(1, sums), lambda: client(0, COUNTED))


def try_earlier_clickhouse(port, lines, merged, work):
    """Loads in the table of an earlier release are copied by the command of clickhouse.sql."""
    client = functools.partial(ask_clickhouse, port)
    pattern = r"(?m)^--   (insert into arrivals .*)\n((?:--     .*\n)+)"
    into, copy = re.search(pattern, read(os.path.join(FLEET, "clickhouse.sql"))).groups()
    engine = "engine = ReplacingMergeTree(load) partition by tuple() order by machine"
    client(f"create table loads as arrivals_local {engine}")
    client(into.replace("arrivals", "loads") + " format TSV", given=arrays_of(lines))
    client(into + copy.replace("\n--", " ").replace("--", " ", 1))
    expect("ClickHouse: the loads of an earlier release", profiles_of(work, client(COUNTED)) == merged)


@contextlib.contextmanager
def run_zookeeper(work):
    """A ZooKeeper of Debian's package; its port."""
    folder, port = os.path.join(work, "zookeeper"), free_ports(1)[0]
    os.mkdir(folder)
    address = f"clientPort={port}\nclientPortAddress=127.0.0.1\nadmin.enableServer=false\n"
    write(f"tickTime=2000\ndataDir={folder}\n{address}", folder, "zoo.cfg")
    main = "org.apache.zookeeper.server.quorum.QuorumPeerMain"
    words = ["java", "-Xmx256m", "-cp", ZOOKEEPER, main, f"{folder}/zoo.cfg"]
    with run_server(words, port, f"{folder}/out"):
        for _ in range(200):
            with contextlib.suppress(OSError), socket.create_connection(("127.0.0.1", port), 5) as client:
                client.sendall(b"srvr\n")  # one that it takes while it starts may have no answer
                if b"Mode: standalone" in client.makefile("rb").read():
                    break
            time.sleep(0.1)
        yield port


def try_replicas(work, rows, merged):
    """Two shards with a replica each: the sums of each server are those of the files, whichever of them was down; a day
    reads its own loads alone, and goes as a whole."""
    ports, lines = neighbouring_ports(4), rows.splitlines(True)
    with run_zookeeper(work) as zookeeper, run_clickhouse(work, ports, zookeeper) as running:
        tables = clickhouse_commands(ports[0], 'sed "s|ReplacingMergeTree')
        here = DocumentCommands(work, tables, "true")
        here.load_rows(())
        load, sums = load_and_sums(ports[0])
        insert = lambda port, given, *words, **more: ask_clickhouse(port, load, *words, given=arrays_of(given), **more)
        quorum = ("--insert_quorum", "2")

        def same(what, *asked):
            for port in asked:
                expect(f"replicas, {what}: the sums of {port}", profiles_of(work, ask_clickhouse(port, sums)) == merged)

        half = len(lines) // 2
        for at, given in enumerate((number_rows(lines, 1), lines[:half], lines[half:], lines, lines[: half // 2])):
            insert(ports[at % 4], given, *quorum)
        same("loads in halves, twice, cut and older", *ports)
        running[2][1].close()
        insert(ports[0], lines, *quorum, status=29, says=["Number of alive replicas"])
        insert(ports[0], number_rows(lines, 1767571200001))
        insert(ports[1], [line.replace("\t1767571200000\t", "\t1767571200002\t") for line in lines])
        same("one is down", *ports[:2], ports[3])
        running[2][1].enter_context(run_server(*running[2][0]))
        ask_clickhouse(ports[2], "system sync replica arrivals_local")
        running[0][1].close()
        same("one was down, and the other one is now", *ports[1:])
        running[0][1].enter_context(run_server(*running[0][0]))
        try_days(ports, here.how, lines)


def try_days(ports, how, lines):
    """A day reads its own loads alone; once it is dropped, it is on no server."""
    commands = clickhouse_commands(ports[0], "clickhouse-client --host 127.0.0.1 --port 9102 --enable_optimize")
    ask, drop = re.fullmatch(r"(?s)(.*> day\.tsv\n)(.*)", commands).groups()
    numbered = (line.replace("\t1767571200000\t", "\t1767571200002\t") for line in lines if "\t2026-01-01\t" in line)
    run(["bash", "-e", "-c", ask], **how)
    got = read(os.path.join(how["cwd"], "day.tsv")).splitlines(True)
    expect("a day", sorted(got) == sorted(numbered))
    count = lambda sign: int(ask_clickhouse(ports[1], f"select count() from arrivals where day {sign} '2026-01-01'"))
    own, others = count("="), count("!=")
    query = "select count() from counted where day = '2026-01-01' format JSON"
    told = ask_clickhouse(ports[1], query, "--enable_optimize_predicate_expression", "1")
    read_rows = int(re.search(r'"rows_read": (\d+)', told)[1])
    expect("a day reads no other", read_rows <= own and others, told, own, others)
    run(["bash", "-e", "-c", drop], **how)
    for port in ports:
        left = ask_clickhouse(port, "select countIf(day = '2026-01-01'), count() > 0 from arrivals_local")
        expect(f"a day that is dropped, on {port}", left == "0\t1\n", left)


class Fleet(checks.Part):
    @classmethod
    def setup_class(cls):
        cls.work = cls.folder()
        cls.rows, cls.merged = fleet(cls.work)

    def has_postgresql(self, what):
        return bool(postgresql.programs()) or not skip(f"without PostgreSQL: {what}")

    def test_postgresql(self):
        if self.has_postgresql("the fleet's profiles in it"):
            try_postgresql(self.work, self.rows, self.merged)

    def test_month(self):
        if not self.has_postgresql("a month of a fleet in it"):
            return
        for is_numbered in (True, False):
            try_month(self.work, is_numbered)
        for name, number in (("try_orders", 60), ("try_names", 200)):
            with postgresql.run_server() as server:
                getattr(store_in_postgresql(server), name)(number, 5)

    def test_retention(self):
        if self.has_postgresql("how long a fleet's profiles stay in it"):
            try_retention()

    def test_nightly(self):
        if not self.has_postgresql("the nightly report of a fleet"):
            return
        other = checks.any_program(self.work)
        if other == "":
            skip("without a built program and rustc: the nightly report of a fleet")
            return
        if other:
            os.environ["MTE_TOOL"] = other
        try_nightly(self.work)

    def test_clickhouse(self):
        checks.need("clickhouse-server clickhouse-client", "the fleet's profiles in ClickHouse")
        try_clickhouse(self.work, self.rows, self.merged)

    def test_replicas(self):
        checks.need("clickhouse-server clickhouse-client java", "replicas of the fleet's profiles in ClickHouse")
        if os.path.exists(ZOOKEEPER):
            try_replicas(self.work, self.rows, self.merged)
        else:
            skip("without Debian's zookeeper: replicas of the fleet's profiles in ClickHouse")
