#!/usr/bin/env -S python3 -B
"""Runs programs alone, under profile_program, under profile_program --live and under trace_program, and compares what they print, the files
that they leave and their exit statuses. No run may differ, and each of the three has to count or to say that it can't.

  programs              the cheap ones that this machine has
  programs --all        all that it has
  programs NAME..       these
  programs --table ..   also prints what was counted, as a table in Markdown

A line for each failure, and for each program that is missing."""

import collections
import contextlib
import difflib
import glob
import hashlib
import os
import re
import shlex
import shutil
import signal
import socket
import subprocess
import sys
import tempfile
import time

import checks
from checks import expect, skip

ROOT = os.path.realpath(os.path.join(os.path.dirname(os.path.realpath(__file__)), "../.."))
SCRIPTS = os.path.join(ROOT, "scripts")
RECORDERS = ("profile_program", "profile_program --live", "trace_program")
# Debian's programs come first, and those of its servers are not on the path of every user
PATH = ":".join([*sorted(glob.glob("/usr/lib/postgresql/*/bin")), "/usr/bin", "/usr/sbin", "/bin", "/sbin", os.environ["PATH"]])
LIMIT = 300  # seconds of a run

# What a case counts: COUNTED by all three; OWN, where the program's allocator can't be followed, and the scripts name it; UNSEEN, where the
# library does not come in. A status of the script that is 3 is right in the last two alone.
COUNTED, OWN, UNSEEN = "counted", "own", "unseen"

Case = collections.namedtuple("Case", "name command cheap before given volatile kind note needs load stop user")


def case(name, command, cheap=False, before="", given="", volatile=(), kind=COUNTED, note="", needs=(), load=None, stop=None, user=None):
    """A program: `command` in words of a shell, run as it is, without one; `before` and, for a server, `load` and `stop` are for a shell.
    `{folder}` and `{port}` are the run's own. Matches of `volatile` are left out of the comparison."""
    return Case(name, command, cheap, before, given, volatile, kind, note, needs, load, stop, user)


NUMBERS = "seq 1 20000 > numbers"
C_FILE = "printf '#include <stdio.h>\\n#include <stdlib.h>\\nint main(void) {{ puts(getenv(\"HOME\") ? \"home\" : \"\"); return 0; }}\\n' > c.c"
CPP_FILE = (
    "printf '#include <iostream>\\n#include <map>\\n#include <string>\\nint main() {{ std::map<std::string, int> m; "
    'for (int i = 0; i < 1000; i++) m[std::to_string(i)] = i; std::cout << m.size() << "\\\\n"; }}\\n\' > c.cpp'
)
REDIS_LOAD = (
    "seq 1 3000 | sed 's/.*/SET key:& value-of-some-length-&/' | redis-cli -p {port} > /dev/null; seq 1 500 | sed 's/.*/RPUSH list:& a b c/' | "
    "redis-cli -p {port} > /dev/null; redis-cli -p {port} dbsize; redis-cli -p {port} get key:77; redis-cli -p {port} lrange list:5 0 -1"
)
SITE = "mkdir site; seq 1 5000 > site/a.txt; "
FETCH = "for i in 1 2 3 4 5 6 7 8 9 10; do curl -s --compressed http://127.0.0.1:{port}/a.txt | cksum; done; curl -s -o /dev/null -w '%{{http_code}}\\n' http://127.0.0.1:{port}/none"
NGINX = (
    SITE + "chmod 755 . site; printf 'worker_processes 1; pid {folder}/pid; error_log {folder}/error.log; events {{ }} http {{ access_log off; gzip on; "
    "gzip_types *; server {{ listen 127.0.0.1:{port}; root {folder}/site; }} }}\\n' > n.conf"
)
POSTGRES = (
    "initdb -D data -A trust --no-sync > /dev/null; printf \"port = {port}\\nunix_socket_directories = '{folder}'\\nlisten_addresses = "
    "'127.0.0.1'\\nfsync = off\\n\" >> data/postgresql.conf"
)
POSTGRES_LOAD = (
    "until pg_isready -q -h 127.0.0.1 -p {port}; do sleep 0.1; done; psql -h 127.0.0.1 -p {port} -U postgres -d postgres -Atc \"create table t as select i, md5(i::text) m from generate_series(1, 20000) i; "
    "select count(*), min(m), max(m) from t; select substr(m, 1, 1) c, count(*) from t group by c order by c\""
)

CASES = [
    # what nearly each machine has
    case("sort", "sort -r -o sorted numbers", True, NUMBERS),
    case("sed", "sed -E s/([0-9])([0-9])/\\2\\1/g numbers", False, "seq 1 2000 > numbers"),
    case("grep", "grep -cE (1|2)+3$ numbers", False, NUMBERS),
    case("gawk", "gawk {{s[$1%97]+=$1}}END{{for(i=0;i<97;i++)print(i,s[i])}} numbers", False, NUMBERS),
    case("tar", "tar --use-compress-program 'gzip -n' -cf tree.tgz --sort=name --mtime=@0 --owner=0 --group=0 tree", False, "mkdir tree; seq 1 900 > tree/a; seq 1 90 > tree/b", note="starts gzip"),
    case("xz", "xz -T4 -k numbers", False, NUMBERS, note="threads"),
    case("zstd", "zstd -q -T4 -k numbers", False, NUMBERS, note="threads"),
    case("bash", "bash -c 'for i in $(seq 300); do x[$i]=$(echo $i); done; echo ${{x[@]}} | cksum'", False, note="forks"),
    case("dash", "dash -c 'for i in 1 2 3; do seq $i | sort -r; done'", True, note="starts programs by vfork"),
    case("perl", "perl -e 'for (1 .. 50000) {{ $h{{$_}} = \"v$_\" }} print scalar(keys %h), \"\\n\"'", True),
    case("python3", "python3 -S -c 'd = {{str(i): [i] for i in range(50000)}}; print(len(d))'", True, note="its own allocator for small blocks"),
    case("git", "git log --stat --format=%H -n 40", True, "git clone -q {root} . 2> /dev/null || (git init -q . && git commit -q --allow-empty -m a)"),
    case("make", "make -j4 -s all", True, "printf 'all: a b c d\\n%%: ; @seq 1 2000 | sort > $@; cksum $@ > $@.sum\\n' > Makefile", note="starts programs"),
    case("cc", "gcc -O2 -c c.c -o c.o", False, C_FILE, note="starts cc1 and as"),
    case("sqlite3", "sqlite3 :memory:", True, given="create table t as with recursive n(i) as (select 1 union all select i + 1 from n where i < 20000) "
         "select i, hex(i) h from n; select count(*), max(h) from t; create index x on t(h); select * from t where h = '3737';\n"),
    case("jq", "jq -c map(.a+1)|add numbers.json", False, "seq 1 5000 | sed 's/.*/{{\"a\": &}}/' | paste -sd, | sed 's/^/[/; s/$/]/' > numbers.json"),
    case("xmllint", "xmllint --xpath count(//b) tree.xml", False, "(echo '<a>'; seq 1 5000 | sed 's/.*/<b c=\"&\"\\/>/'; echo '</a>') > tree.xml"),
    # servers
    case("redis-server", "redis-server --port {port} --save '' --appendonly no --loglevel warning", True, load=REDIS_LOAD,
         stop="redis-cli -p {port} shutdown nosave", needs=("redis-cli",), note="jemalloc, a shared library", volatile=[r"\d+:[A-Z] \d+ .*"]),
    case("nginx", "nginx -p {folder} -c n.conf -g 'daemon off; user root;'", before=NGINX, load=FETCH, stop="kill -QUIT $(cat pid)", needs=("curl",),
         note="the worker is a fork"),
    case("nginx as a daemon", "nginx -p {folder} -c n.conf -g 'user root;'", before=NGINX, load=FETCH, stop="kill -QUIT $(cat pid)", needs=("nginx", "curl"),
         note="the script ends before it does"),
    case("postgres", "postgres -D data", before=POSTGRES, load=POSTGRES_LOAD, stop="pg_ctl -D data -m fast -s stop", user="postgres",
         needs=("psql", "pg_isready", "pg_ctl", "initdb", "setpriv"), note="a fork for each client", volatile=[r"\d{4}-\d\d-\d\d .*"]),
    case("memcached", "memcached -u root -l 127.0.0.1 -p {port} -P {folder}/pid", needs=("bash",), stop="kill $(cat pid)", note="threads",
         load="bash -c 'exec 3<> /dev/tcp/127.0.0.1/{port}; (for i in $(seq 1 2000); do printf \"set k%d 0 0 6\\r\\nvalue!\\r\\n\" $i; done; printf \"get k7\\r\\nget k1999\\r\\nquit\\r\\n\") >&3; cksum <&3'",
         volatile=["Signal handled: .*"]),
    case("lighttpd", "lighttpd -D -f l.conf", before=SITE + "printf 'server.document-root = \"{folder}/site\"\\nserver.port = {port}\\nserver.bind = \"127.0.0.1\"\\n"
         "server.pid-file = \"{folder}/pid\"\\n' > l.conf", load=FETCH, stop="sleep 0.3; kill $(cat pid)", needs=("curl",), volatile=[r"\d{4}-\d\d-\d\d .*"]),
    case("haproxy", "haproxy -db -f h.conf -p {folder}/pid", before="printf 'global\\n maxconn 100\\ndefaults\\n mode http\\n timeout client 5s\\n timeout server 5s\\n "
         "timeout connect 5s\\nfrontend f\\n bind 127.0.0.1:{port}\\n http-request return status 200 content-type text/plain string hello\\n' > h.conf",
         load="for i in 1 2 3 4 5; do curl -s http://127.0.0.1:{port}/; done", stop="for p in $(pgrep -x haproxy); do ! grep -q {folder} /proc/$p/cmdline || kill -USR1 $p; done",
         needs=("curl", "pgrep"), volatile=[r"\[(NOTICE|WARNING|ALERT)\].*"], note="threads"),
    case("named", "named -g -c {folder}/named.conf -p {port}", before="printf 'options {{ directory \"{folder}\"; pid-file \"{folder}/pid\"; listen-on port {port} {{ 127.0.0.1; }}; "
         "listen-on-v6 {{ none; }}; session-keyfile \"{folder}/key\"; recursion no; }}; controls {{ }}; zone \"here.\" {{ type primary; file \"here\"; }};\\n' > named.conf; "
         "printf '$TTL 60\\n@ SOA a. b. 1 60 60 60 60\\n@ NS a.here.\\na A 127.0.0.7\\n' > here", load="for i in 1 2 3 4 5 6 7 8 9; do a=$(dig +short @127.0.0.1 -p {port} a.here.); [ \"$a\" = 127.0.0.7 ] && break; sleep 0.5; done; echo $a",
         stop="kill $(cat pid)", needs=("dig",), kind=OWN, note="jemalloc by its mallocx", volatile=[r"\d\d-[A-Z][a-z]{2}-\d{4} .*"]),
    case("mariadbd", "mariadbd --no-defaults --user=root --datadir={folder}/data --port={port} --bind-address=127.0.0.1 --socket={folder}/s --pid-file={folder}/pid",
         before="mariadb-install-db --no-defaults --user=root --datadir={folder}/data --auth-root-authentication-method=normal > /dev/null 2>&1",
         load="mariadb --no-defaults -S {folder}/s -e 'create database d; use d; create table t(i int, s varchar(40)); insert into t select seq, md5(seq) from seq_1_to_20000; "
         "select count(*), min(s), max(s) from t'", stop="kill $(cat pid)", needs=("mariadb", "mariadb-install-db"), volatile=[r"\d{4}-\d\d-\d\d .*", "Version: .*"],
         note="threads"),
    # compilers and linkers
    case("g++", "g++ -O1 c.cpp -o program", before=CPP_FILE, note="starts cc1plus, as and ld"),
    case("clang", "clang -O1 -c c.c -o c.o", before=C_FILE, note="its allocator asks in large pieces"),
    case("ld.lld", "ld.lld -shared c.o -o c.so", before=C_FILE + "; cc -fPIC -c c.c", note="threads"),
    case("go", "go build -o program c.go", before="printf 'package main\\nimport \"fmt\"\\nfunc main() {{ fmt.Println(1) }}\\n' > c.go; mkdir cache",
         kind=COUNTED, note="Go's own allocator; what it counts is C's", volatile=[]),
    case("rustc", "rustc -O c.rs -o program", before="printf 'fn main() {{ println!(\"1\"); }}\\n' > c.rs"),
    case("ocamlc", "ocamlc c.ml -o program", before="printf 'let () = print_endline \"1\"\\n' > c.ml"),
    case("cmake", "cmake -S . -B build", before=C_FILE + "; printf 'cmake_minimum_required(VERSION 3.10)\\nproject(p C)\\nadd_executable(p c.c)\\n' > CMakeLists.txt",
         volatile=[r".*\([0-9.]+s\)"], note="starts compilers"),
    case("ninja", "ninja -j4", before="(echo 'rule r'; echo ' command = seq 1 500 > $out'; for i in $(seq 1 20); do echo \"build o$i: r\"; done) > build.ninja",
         note="starts programs", volatile=[r"\[\d+/\d+\].*"]),
    # interpreters
    case("ruby", "ruby -e 'h = {{}}; 50000.times {{ |i| h[i.to_s] = [i] }}; puts h.size'"),
    case("node", "node -e 'const m = new Map(); for (let i = 0; i < 50000; i++) m.set(\"k\" + i, [i]); console.log(m.size, Buffer.alloc(100000).length)'",
         note="its own allocator; threads"),
    case("lua5.4", "lua5.4 -e 'local t = {{}} for i = 1, 50000 do t[\"k\" .. i] = {{i}} end print(#\"x\", t.k77[1])'"),
    case("php", "php -r 'for ($i = 0; $i < 50000; $i++) $a[\"k$i\"] = [$i]; echo count($a), \"\\n\";'", note="its own allocator for small blocks"),
    case("guile", "guile -c '(display (length (map (lambda (i) (number->string i)) (iota 20000)))) (newline)'", before="mkdir cache", note="its own heap"),
    case("java", "java -Xmx64m -XX:TieredStopAtLevel=1 -version", volatile=["OpenJDK.*"], note="its own heap; threads"),
    case("erl", "erl -noshell -eval 'io:format(\"~p~n\", [length([X || X <- lists:seq(1, 50000)])]), halt().'", note="its own allocators; threads"),
    # media, documents, data
    case("ffmpeg", "ffmpeg -v error -f lavfi -i testsrc=duration=1:size=160x120:rate=10 -threads 4 -fflags +bitexact -flags +bitexact -c:v mpeg4 -y o.avi", note="threads"),
    case("convert", "convert-im6.q16 -size 300x200 gradient:red-blue -blur 0x3 -resize 50% -strip o.ppm", needs=("convert-im6.q16",), note="ImageMagick; threads"),
    case("dot", "dot -Tsvg g.dot -o o.svg", before="(echo 'digraph g {{'; for i in $(seq 1 60); do echo \"n$((i / 2)) -> n$i;\"; done; echo '}}') > g.dot"),
    case("gs", "gs -q -dNOPAUSE -dBATCH -sDEVICE=ppmraw -r50 -sOutputFile=o.ppm d.ps", before="printf '%%!PS\\n/Helvetica findfont 20 scalefont setfont 72 72 moveto (hello) show showpage\\n' > d.ps"),
    case("pdftotext", "pdftotext d.pdf -", before="printf '%%!PS\\n/Helvetica findfont 20 scalefont setfont 72 72 moveto (hello) show showpage\\n' > d.ps; gs -q -dNOPAUSE -dBATCH -sDEVICE=pdfwrite -sOutputFile=d.pdf d.ps",
         needs=("gs",)),
    case("vim", "vim.nox -e -s -u NONE -c %s/1/one/g -c wq numbers", before=NUMBERS, needs=("vim.nox",)),
    case("emacs", "emacs --batch -Q --eval '(message (number-to-string (length (number-sequence 1 20000))))'", note="maps its heap itself in part"),
    case("gnuplot", "gnuplot p.gp", before="printf 'set terminal svg\\nset output \"o.svg\"\\nplot sin(x)\\n' > p.gp"),
    # threads and forks
    case("pbzip2", "pbzip2 -p4 -b1 -k numbers", before="seq 1 400000 > numbers", note="threads"),
    case("address sanitizer", "./a.out", True, C_FILE + "; gcc -fsanitize=address c.c", kind=OWN, note="gcc: its own allocator", needs=("gcc",)),
    case("parallel", "parallel -k -j4 echo {{}}\\;seq\\ {{}}\\|sort\\ -r ::: 1 2 3 4 5 6", note="a script of perl; forks"),
    case("zsh", "zsh -f -c 'for i in {{1..200}}; do x[i]=$(print $i); done; print ${{#x}}'", note="forks"),
    # what the library does not see
    case("busybox", "busybox seq 1 50", kind=UNSEEN, note="static"),
    case("mount", "mount -V", kind=UNSEEN, user="nobody", needs=("setpriv",), note="set-user-id, as another user"),
]


def free_port():
    with socket.socket() as s:
        s.bind(("127.0.0.1", 0))
        return s.getsockname()[1]


def shell(text, folder, environment, as_user):
    done = subprocess.run([*as_user, "sh", "-c", text], cwd=folder, env=environment, stdin=subprocess.DEVNULL, stdout=subprocess.PIPE, stderr=subprocess.STDOUT, timeout=LIMIT)
    return done.stdout.decode(errors="replace")


def listens(port):
    with contextlib.suppress(OSError), socket.create_connection(("127.0.0.1", port), 1):
        return True
    return False


Run = collections.namedtuple("Run", "status printed files loaded counted said")


def files_of(folder):
    """The sums of the files that a run leaves, but those that differ in every run."""
    found = {}
    for path, folders, names in os.walk(folder):
        folders[:] = [name for name in folders if name not in (".git", "cache", "data", "build", ".config", ".cache")]
        for name in names:
            file = os.path.join(path, name)
            if os.path.isfile(file) and not name.endswith(".jnl") and name not in ("pid", "key", "n.conf", "l.conf", "h.conf", "named.conf", "error.log", ".erlang.cookie"):
                with open(file, "rb") as opened:
                    found[os.path.relpath(file, folder)] = hashlib.sha256(opened.read()).hexdigest()
    return found


def run(case, recorder, work):
    """One run in a folder of its own: alone where recorder is None."""
    folder = tempfile.mkdtemp(dir=work)
    port = free_port()
    filled = {"folder": folder, "port": port, "root": ROOT}
    environment = {**os.environ, "PATH": PATH, "HOME": folder, "LC_ALL": "C.UTF-8", "GOCACHE": folder + "/cache", "GOFLAGS": "-mod=mod", "XDG_CACHE_HOME": folder + "/cache"}
    as_user = []
    if case.user is not None:
        shutil.chown(folder, case.user)
        as_user = ["setpriv", "--reuid", case.user, "--clear-groups"]
    before = shell(case.before.format(**filled), folder, environment, as_user) if case.before else ""
    # what the recorders compile is compiled once; a user of his own takes nothing that root has made
    cache, compiled = os.path.join(folder, "cache", "mte_tool"), os.path.join(work, "compiled")
    if recorder is not None and not as_user and os.path.isdir(compiled):
        shutil.copytree(compiled, cache)
    words = shlex.split(case.command.format(**filled))
    said = os.path.join(work, "said")
    command = words if recorder is None else [os.path.join(SCRIPTS, recorder.split()[0]), *recorder.split()[1:], "--", *words]
    counted, loaded, printed, started = run_under_load(said, work, folder, environment, as_user, command, case, recorder, port, filled)
    lines, mine, status = outcome_of_run(started, printed, recorder, port, case, folder)
    left = files_of(folder)
    if os.path.isdir(cache) and not as_user:
        shutil.copytree(cache, compiled, dirs_exist_ok=True)
    shutil.rmtree(folder, ignore_errors=True)
    return Run(status, before + "\n".join(lines), left, loaded.replace(str(port), "PORT"), counted.decode(errors="replace"), mine), started.returncode


def outcome_of_run(started, printed, recorder, port, case, folder):
    """What the recorder says, what the program printed, and the program's own status."""
    mine, lines, status = [], [], started.returncode
    for line in printed.splitlines():
        if recorder is not None and line.startswith(recorder.split()[0] + ": "):
            mine.append(line.split(": ", 1)[1])
        elif not any(re.fullmatch(pattern, line) for pattern in case.volatile):
            lines.append(line.replace(folder, "FOLDER").replace(str(port), "PORT"))
    # the program's own status, as the recorder tells it
    if recorder is not None:
        ended = [re.search(r" ended with status (\d+)$", line) for line in mine]
        status = next((int(found[1]) for found in ended if found), 0)
        if started.returncode not in ((1,) if status else (0,)) and case.kind == COUNTED:
            expect(f"{recorder} {case.name}: the script's status is {started.returncode}", False, printed)
    elif status < 0:
        status = 128 - status
    return lines, mine, status


def run_under_load(said, work, folder, environment, as_user, command, case, recorder, port, filled):
    """Runs it under its load, and returns how it ended, what was printed to its client, and its two outputs."""
    with open(os.path.join(work, "out"), "w+b") as out, open(said, "w+b") as error:
        started = subprocess.Popen(
            [*as_user, *command], cwd=folder, env=environment, stdin=subprocess.PIPE, stdout=error if recorder is None else out, stderr=error, start_new_session=True
        )
        loaded = ""
        try:
            if case.load is not None:
                until = time.monotonic() + 60
                while not listens(port) and time.monotonic() < until:
                    time.sleep(0.05)
                loaded = shell(case.load.format(**filled), folder, environment, as_user)
                loaded += shell(case.stop.format(**filled), folder, environment, as_user)
            started.communicate(case.given.encode(), timeout=LIMIT)
        finally:
            with contextlib.suppress(ProcessLookupError):
                os.killpg(started.pid, signal.SIGKILL)
        out.seek(0), error.seek(0)
        counted, printed = out.read(), error.read().decode(errors="replace")
    return counted, loaded, printed, started


def figures(recorder, counted):
    """What a profile or a trace has: requests and bytes; requests and events."""
    lines = [line.split() for line in counted.splitlines()]
    if recorder == "trace_program":
        return sum(line[0] in ("malloc", "calloc", "realloc") for line in lines), len(lines)
    return sum(int(line[1]) for line in lines), sum(int(line[1]) * int(line[0]) for line in lines if line[0] != "large")


def difference(one, other):
    return "\n".join(difflib.unified_diff(one.splitlines(), other.splitlines(), "alone", "recorded", n=0, lineterm=""))


def try_program(case, work, table):
    alone, _ = run(case, None, work)
    again, _ = run(case, None, work)
    same_files = {name for name in alone.files if alone.files[name] == again.files.get(name)}
    if alone.printed != again.printed:
        expect(f"{case.name}: two runs alone print alike, so that they can be compared", False, difference(alone.printed, again.printed))
        return
    row = [case.name]
    for recorder in RECORDERS:
        got, status = run(case, recorder, work)
        what = f"{recorder} {case.name}"
        expect(f"{what}: the same status", got.status == alone.status, f"{got.status}, not {alone.status}: {got.said} {got.printed}")
        expect(f"{what}: the same output", got.printed == alone.printed, difference(alone.printed, got.printed))
        expect(f"{what}: the same answers", got.loaded == alone.loaded, difference(alone.loaded, got.loaded))
        differ = [name for name in same_files if got.files.get(name) != alone.files[name]]
        expect(f"{what}: the same files", not differ and set(got.files) == set(alone.files), f"{differ} {set(got.files) ^ set(alone.files)}")
        wrong = [line for line in got.said if "of no live block" in line]
        expect(f"{what}: no free is taken for a wrong one", not wrong, str(wrong))
        if case.kind == COUNTED:
            numbers = figures(recorder, got.counted)
            expect(f"{what}: something is counted", numbers[0] > 0, str(got.said))
            row.append(numbers)
        else:
            told = "allocator of its own" if case.kind == OWN else "can't be recorded"
            expect(f"{what}: it says why nothing is counted", status == 3 and any(told in line for line in got.said) and not got.counted, f"{status} {got.said}")
            row.append(None)
    if table:
        requests, peak, traced = row[1:]
        cells = [f"{requests[0]:,}", f"{peak[0]:,}", f"{peak[1] / 1000:,.0f}", f"{traced[0]:,}"] if requests else ["-"] * 4
        print(f"| {case.name} | {' | '.join(cells)} | {case.note} |", flush=True)


class Programs(checks.Part):
    @classmethod
    def setup_class(cls):
        checks.need("cc", "programs under profile_program and trace_program")
        cls.work = cls.folder()
        os.chmod(cls.work, 0o755)
        # for what a daemon that runs on still has open
        os.environ["TMPDIR"] = cls.work + "/temporary"
        os.mkdir(os.environ["TMPDIR"])
        os.chmod(os.environ["TMPDIR"], 0o1777)

    def test_programs(self):
        chosen = checks.options.programs
        for each in CASES:
            if each.name not in chosen and (chosen or not each.cheap and not checks.options.all):
                continue
            first = shlex.split(each.command.format(folder="", port="", root=""))[0]
            missing = [name for name in (first, *each.needs) if "/" not in name and shutil.which(name, path=PATH) is None]
            if each.user is not None and os.geteuid() != 0:
                missing.append("root")
            if missing:
                skip(f"without {', '.join(missing)}: {each.name}")
                continue
            try:
                try_program(each, self.work, checks.options.table)
            except subprocess.TimeoutExpired as late:
                expect(f"{each.name}: it ends", False, late)


def add_options(parser):
    parser.add_argument("programs", nargs="*", metavar="PROGRAM", help=", ".join(each.name for each in CASES))
    parser.add_argument("--all", action="store_true", help="also those that take long")
    parser.add_argument("--table", action="store_true", help="print the rows of the table in docs/LIBRARIES.md")


def print_head(options):
    if unknown := set(options.programs) - {each.name for each in CASES}:
        sys.exit(f"programs: there is no {', '.join(sorted(unknown))}")
    if options.table:
        print("| Program | Requests | Blocks live at the peak | Their KB | Requests traced | |\n|---|---:|---:|---:|---:|---|", flush=True)


if __name__ == "__main__":
    checks.main(print_head)
