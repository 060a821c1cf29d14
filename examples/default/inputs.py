"""The inputs of the corpus' programs, each made by its name, a number and a seed: the same bytes each time, but that
what a compiler makes names its folder.

Each function gives the text or the bytes of a file of about so many records. `write` makes the files of a row."""

import json
import os
import random
import struct
import subprocess
from collections.abc import Callable, Iterator
from typing import Union

SEED = 20261201
LETTERS = "aeioubcdfgklmnprst"
Made = Union[str, bytes, Iterator[str]]
Maker = Callable[[random.Random, int], Made]
MAKERS: "dict[str, Maker]" = {}


def maker(made: Maker) -> Maker:
    MAKERS[made.__name__] = made
    return made


def text_of(made: Made) -> bytes:
    return made if isinstance(made, bytes) else "".join(made).encode()


def word(draw: random.Random) -> str:
    return "".join(draw.choices(LETTERS, k=2 + int(11 * draw.random())))


def words(draw: random.Random, number: int) -> "list[str]":
    return [word(draw) for _ in range(number)]


def sentence(draw: random.Random, known: "list[str]", most: int = 14) -> str:
    return " ".join(draw.choices(known, k=draw.randint(3, most)))


# ---- text


@maker
def text(draw: random.Random, number: int) -> Made:
    known = words(draw, 20000)
    return (f"{sentence(draw, known)}\n" for _ in range(number))


@maker
def markdown(draw: random.Random, number: int) -> Made:
    known = words(draw, 3000)
    for n in range(number):
        yield f"# {sentence(draw, known, 6)}\n\n{sentence(draw, known, 60)} *{known[n % 3000]}* [x](http://e/{n})\n\n"
        yield f"- {sentence(draw, known)}\n- `{known[-n % 3000]}`\n\n"


@maker
def manual(draw: random.Random, number: int) -> Made:
    known = words(draw, 3000)
    yield ".TH X 1\n"
    for n in range(number):
        yield f".SH {known[n % 3000]}\n.B {sentence(draw, known, 4)}\n{sentence(draw, known, 60)}\n.PP\n\\fI{n}\\fR\n"


@maker
def rtf(draw: random.Random, number: int) -> Made:
    known = words(draw, 3000)
    yield "{\\rtf1\\ansi{\\fonttbl\\f0 Times;}\n"
    yield from (f"\\par \\b {known[n % 3000]}\\b0  {sentence(draw, known, 40)}\n" for n in range(number))
    yield "}\n"


@maker
def macros(draw: random.Random, number: int) -> Made:
    for n in range(number):
        yield f"define(`m{n}',`$1 {word(draw)} {f'm{n - 1}($1)' if n % 40 else 'end'}')dnl\n"
    yield from (f"m{draw.randrange(number)}(a)\n" for _ in range(number // 8))


@maker
def translations(draw: random.Random, number: int) -> Made:
    known = words(draw, 3000)
    yield 'msgid ""\nmsgstr "Content-Type: text/plain; charset=UTF-8\\n"\n\n'
    yield from (
        f'#: a.c:{n}\nmsgid "{n} {sentence(draw, known)}"\nmsgstr "{sentence(draw, known)}"\n\n' for n in range(number)
    )


@maker
def access_log(draw: random.Random, number: int) -> Made:
    known = words(draw, 4000)
    for n in range(number):
        host = f"10.{draw.randrange(40)}.{draw.randrange(250)}.{draw.randrange(250)}"
        path = f"/{draw.choice(known)}/{draw.choice(known)}?{n % 977}"
        when = f"{1 + n * 28 // number:02}/Jan/2024:{n % 24:02}:{n % 60:02}:00 +0000"
        yield (
            f'{host} - - [{when}] "GET {path} HTTP/1.1" 200 {draw.randrange(9999)} "http://e/{draw.choice(known)}" '
            f'"agent/{n % 37}"\n'
        )


@maker
def mailbox(draw: random.Random, number: int) -> Made:
    known = words(draw, 8000)
    for n in range(number):
        yield f"From a{n % 700}@e.org Mon Jan {1 + n % 28:2} 10:00:00 2024\nFrom: a{n % 700}@e.org\nTo: b@e.org\n"
        yield (
            f"Message-ID: <{n}@e.org>\nDate: Mon, {1 + n % 28} Jan 2024 10:00:00 +0000\nSubject: "
            f"{sentence(draw, known, 6)}\n\n"
        )
        yield f"{sentence(draw, known, 90)}\n\n"


# ---- records


def one_record(draw: random.Random, n: int) -> dict:
    tags = [word(draw) for _ in range(draw.randrange(4))]
    return {
        "id": n,
        "name": "n" * draw.randrange(5, 40),
        "price": draw.random(),
        "tags": tags,
        "of": {"a": word(draw), "b": n % 7},
    }


@maker
def records(draw: random.Random, number: int) -> Made:
    return json.dumps([one_record(draw, n) for n in range(number)])


@maker
def recfile(draw: random.Random, number: int) -> Made:
    yield "%rec: Book\n\n"
    yield from (
        f"Id: {n}\nTitle: {word(draw)} {word(draw)}\nAuthor: {word(draw)}\nPlace: {n % 9}\n\n" for n in range(number)
    )


@maker
def sql(draw: random.Random, number: int) -> Made:
    yield "create table t(id integer primary key, name text, kind int, note text);\nbegin;\n"
    yield from (f"insert into t values({n},'{word(draw)}',{n % 31},'{word(draw) * 3}');\n" for n in range(number))
    yield (
        "commit;\ncreate index i on t(name);\ndelete from t where kind % 3 = 0;\nselect kind, count(*), max(note) "
        "from t group by kind;\n"
    )


@maker
def property_list(draw: random.Random, number: int) -> Made:
    yield '<?xml version="1.0"?>\n<plist version="1.0"><dict>\n'
    for n in range(number):
        yield (
            f"<key>k{n}</key><dict><key>a</key><string>{word(draw)}</string><key>b</key><integer>"
            f"{n}</integer></dict>\n"
        )
    yield "</dict></plist>\n"


@maker
def xml(draw: random.Random, number: int) -> Made:
    yield "<r>\n"
    for n in range(number):
        yield (
            f'<i id="{n}" k="{word(draw)}"><n>{word(draw)} {word(draw)}</n><t>{n % 50}</t><p>'
            f"{draw.random():.4f}</p></i>\n"
        )
    yield "</r>\n"


@maker
def stylesheet(draw: random.Random, number: int) -> Made:
    yield (
        '<xsl:stylesheet version="1.0" xmlns:xsl="http://www.w3.org/1999/XSL/Transform"><xsl:key name="k" match="i" '
        'use="t"/>'
    )
    yield '<xsl:template match="/"><o><xsl:for-each select="r/i"><xsl:sort select="n"/><x id="{@id}">'
    yield "<xsl:value-of select=\"concat(n,':',p)\"/></x></xsl:for-each></o></xsl:template></xsl:stylesheet>\n"


@maker
def html(draw: random.Random, number: int) -> Made:
    yield "<!DOCTYPE html>\n<html><head><title>t</title></head><body>\n"
    for n in range(number):
        link = f'<a href="x{n}">{word(draw)}</a>'
        yield (
            f'<div class="c{n % 17}"><p>{word(draw)} <b>b<i>it</i></b> {link}</p><table><tr><td>{n}</td><td>'
            f"{word(draw)}</td></tr></table></div>\n"
        )
    yield "</body></html>\n"


@maker
def ledger(draw: random.Random, number: int) -> Made:
    for n in range(number):
        yield (
            f"2020/{1 + n % 12:02}/{1 + n % 28:02} Payee {draw.randrange(500)}\n    Expenses:C{draw.randrange(80)}:S"
            f"{draw.randrange(9)}    "
        )
        yield f"${draw.randrange(1, 9999)}.{draw.randrange(100):02}\n    Assets:Bank{draw.randrange(5)}\n\n"


# ---- sources


@maker
def c_source(draw: random.Random, number: int) -> Made:
    yield "extern void *malloc(unsigned long); extern void free(void *);\nstruct s { int a, b; char *p; };\n"
    for n in range(number):
        yield (
            f"int f{n}(struct s *x, int n) {{ int t[{8 + n % 9}] = {{0}}; int q = n * {n};\n  for (int k = 0; k < n; "
            f"k++) {{\n"
        )
        yield (
            f"    if (x->a > k) q += x->b; else q -= t[k % 8];\n    x->p = malloc(k + {n}); if (!x->p) return -1; "
            f"x->p[0] = q; free(x->p); }}\n"
        )
        yield (
            f"  switch (q % {3 + n % 5}) {{ case 0: q++; break; case 1: q *= 3; break; default: q ^= "
            f"{draw.randrange(999)}; }}\n"
        )
        yield f"  return q{f' + f{n - 1}(x, n - 1)' if n else ''}; }}\n"


@maker
def cpp_source(draw: random.Random, number: int) -> Made:
    yield "#include <map>\n#include <string>\n#include <vector>\n#include <algorithm>\n"
    for n in range(number):
        yield (
            f"struct S{n} {{ std::map<std::string, std::vector<int>> m; int v[{n + 1}]; int get(const std::string "
            f"&k) const; }};\n"
        )
        yield (
            f"int S{n}::get(const std::string &k) const {{ auto i = m.find(k); if (i == m.end()) return {n}; "
            f"std::vector<int> c(i->second);\n"
        )
        yield (
            f"  std::sort(c.begin(), c.end(), [](int a, int b) {{ return a > b + {n}; }}); return c.empty() ? v[0] : "
            f"c[0]; }}\n"
        )


@maker
def header(draw: random.Random, number: int) -> Made:
    for n in range(number):
        yield (
            f"/** {word(draw)} {word(draw)}. */\nstruct s{n} {{ int a; struct s{n} *n; }};\nint f{n}(struct s{n} *p, "
            f"const char *q, double r);\n"
        )
        yield (
            f"/// {word(draw)}\nclass C{n} {{ public: C{n}(int); ~C{n}(); int get(int x) const; void set(const char "
            f"*v, int y=3); private: int v; }};\n"
        )


@maker
def fortran(draw: random.Random, number: int) -> Made:
    yield "module m\ncontains\n"
    for n in range(number):
        yield (
            f"subroutine s{n}(a,n)\n integer,intent(in)::n\n real(8),intent(inout)::a(n,n)\n integer::i,j\n do "
            f"i=1,n\n do j=1,n\n"
        )
        yield f" a(i,j)=a(i,j)*{n}.0d0+sin(a(j,i))\n end do\n end do\n where(a>{n}.0d0) a=0\nend subroutine\n"
    yield "end module\n"


@maker
def intel_assembly(draw: random.Random, number: int) -> Made:
    yield "section .text\n"
    for n in range(number):
        yield f"l{n}: mov eax, [ebx+{n % 1000 * 4}]\n add eax, l{draw.randrange(number)}\n jnz l{max(0, n - 2)}\n"
        yield f"%define M{n}(x) (x+{n})\n" if n % 5 == 0 else ""


@maker
def assembly(draw: random.Random, number: int) -> Made:
    for n in range(number):
        yield (
            f"l{n}: movl {n % 1000 * 4}(%rbx), %eax\n .cfi_startproc\n addl $l{draw.randrange(number)}, %eax\n jne l"
            f"{max(0, n - 2)}\n .cfi_endproc\n"
        )


@maker
def llvm_code(draw: random.Random, number: int) -> Made:
    source = text_of(c_source(draw, number))
    words_of = ["clang-14", "-O1", "-Xclang", "-disable-llvm-passes", "-S", "-emit-llvm", "-xc", "-", "-o", "-"]
    return subprocess.run(words_of, input=source, stdout=subprocess.PIPE, check=True).stdout


@maker
def object_code(draw: random.Random, number: int) -> Made:
    source = text_of(c_source(draw, number))
    path = f"/tmp/{os.getpid()}.{number}.o"
    subprocess.run(["gcc", "-g", "-O0", "-c", "-xc", "-", "-o", path], input=source, check=True)
    with open(path, "rb") as file:
        made = file.read()
    os.remove(path)
    return made


@maker
def scanner(draw: random.Random, number: int) -> Made:
    yield (
        "int scan(const char *YYCURSOR) { const char *YYMARKER;\n/*!re2c re2c:define:YYCTYPE = char; "
        "re2c:yyfill:enable = 0;\n"
    )
    yield from (f'"{each}" {{ return {n}; }}\n' for n, each in enumerate(sorted(set(words(draw, number)))))
    yield "* { return -1; }\n*/ }\n"


@maker
def state_machine(draw: random.Random, number: int) -> Made:
    yield "%%{ machine m;\n"
    yield "main := (" + " | ".join(
        f"'{each}' @{{ n = {n}; }}" for n, each in enumerate(sorted(set(words(draw, number))))
    ) + ")*;\n"
    yield (
        "}%%\n%% write data;\nint f(const char *p, const char *pe) { int cs, n = 0;\n%% write init;\n%% write exec;\n"
        "return n; }\n"
    )


@maker
def keywords(draw: random.Random, number: int) -> Made:
    return (f"{each}\n" for each in sorted(set(words(draw, number))))


@maker
def protobuf(draw: random.Random, number: int) -> Made:
    yield 'syntax="proto3"; package x;\n'
    for n in range(number):
        before = f"M{draw.randrange(n)} g=4;" if n else ""
        yield (
            f"message M{n} {{ int32 a{n}=1; repeated string b=2; map<string,int64> c=3; {before} oneof z {{ bytes "
            f"d=5; double e=6; }} }}\n"
        )


@maker
def thrift(draw: random.Random, number: int) -> Made:
    for n in range(number):
        yield (
            f"struct S{n} {{ 1: i32 a; 2: list<string> b; 3: map<string,i64> c"
            f"{f'; 4: S{draw.randrange(n)} d' if n else ''} }}\n"
        )


@maker
def makefile(draw: random.Random, number: int) -> Made:
    yield f"all: {' '.join(f'o{n}' for n in range(number))}\n"
    yield from (
        f"V{n} := {word(draw)} $(V{max(n - 9, 0)})\no{n}: s{n}\n\t@: $(V{n % 50}) $@\ns{n}:\n\t@:\n"
        for n in range(number)
    )


@maker
def ninja(draw: random.Random, number: int) -> Made:
    yield "rule cc\n command = true $in $out\n description = CC $out\n"
    yield from (
        f"build o{n}.o: cc s{n}.c | h{draw.randrange(999)}.h\n cflags = -O{n % 4} -DX{n}\n" for n in range(number)
    )
    yield "".join(
        f"build h{n}.h: cc g{n}\n" for n in range(1000)
    ) + f"build all: phony {' '.join(f'o{n}.o' for n in range(number))}\n"


@maker
def cmake(draw: random.Random, number: int) -> Made:
    yield "cmake_minimum_required(VERSION 3.10)\nset(l)\n"
    yield from (
        f'set(v{n} "{word(draw)};{n}")\nlist(APPEND l ${{v{n}}})\nstring(REPLACE "a" "b" w{n} "{word(draw)}")\n'
        for n in range(number)
    )


# ---- hardware, geometry, pictures


@maker
def verilog(draw: random.Random, number: int) -> Made:
    for n in range(number):
        yield f"module m{n}(input clk,input [7:0] a,b,output reg [8:0] q);\n wire [8:0] s=a+b^{n % 200};\n"
        yield f" always @(posedge clk) if(a>b) q<=s; else q<=s-{n % 100};\nendmodule\n"
    yield "module top(input clk,input [7:0] a,b,output [8:0] q);\n"
    yield "".join(f"wire [8:0] q{n}; m{n} u{n}(clk,a,b,q{n});\n" for n in range(number))
    yield f"assign q={'^'.join(f'q{n}' for n in range(number))};\nendmodule\n"


@maker
def logic(draw: random.Random, number: int) -> Made:
    yield (
        f".model m\n.inputs {' '.join(f'i{n}' for n in range(64))}\n.outputs "
        f"{' '.join(f'x{number - 1 - n}' for n in range(32))}\n"
    )
    for n in range(number):
        given = [f"x{draw.randrange(n)}" if n and draw.random() < 0.8 else f"i{draw.randrange(64)}" for _ in range(2)]
        if len(set(given)) == 2:
            yield f".names {' '.join(given)} x{n}\n{draw.choice(['11 1', '1- 1', '01 1'])}\n"
        else:
            yield f".names {given[0]} x{n}\n0 1\n"
    yield ".end\n"


@maker
def graph(draw: random.Random, number: int) -> Made:
    yield "digraph g {\n"
    yield from (f'n{n} [label="{word(draw)}"]; n{n} -> n{draw.randrange(n)};\n' for n in range(1, number))
    yield "}\n"


@maker
def drawing(draw: random.Random, number: int) -> Made:
    yield '<svg xmlns="http://www.w3.org/2000/svg" width="800" height="800">\n'
    for n in range(number):
        x, y = draw.randrange(800), draw.randrange(800)
        yield (
            f'<g fill="rgb({n % 255},9,9)"><path d="M{x} {y}L{y} {x}C1 2 3 4 {x} 6Z"/><text x="{x}" y="{y}">'
            f"{word(draw)}</text></g>\n"
        )
    yield "</svg>\n"


@maker
def bitmap(draw: random.Random, number: int) -> Made:
    width = number // 8
    rows = [
        bytes(draw.getrandbits(8) & draw.getrandbits(8) & -(x // 3 % 2 ^ y // 40 % 2) & 255 for x in range(width))
        for y in range(number)
    ]
    return b"P4\n%d %d\n" % (8 * width, number) + b"".join(rows)


@maker
def solid(draw: random.Random, number: int) -> Made:
    yield "solid s\n"
    for _ in range(number):
        yield "facet normal 0 0 1\nouter loop\n" + "".join(
            f"vertex {draw.random():.4f} {draw.random():.4f} {draw.random():.4f}\n" for _ in range(3)
        ) + "endloop\nendfacet\n"
    yield "endsolid s\n"


@maker
def pdf(draw: random.Random, number: int) -> Made:
    font = "<< /Type /Font /Subtype /Type1 /BaseFont /Helvetica >>"
    kids = " ".join(f"{n} 0 R" for n in range(3, 3 + 2 * number, 2))
    parts = ["<< /Type /Catalog /Pages 2 0 R >>", f"<< /Type /Pages /Count {number} /Kids [ {kids} ] >>"]
    for n in range(number):
        parts.append(
            f"<< /Type /Page /Parent 2 0 R /MediaBox [0 0 612 792] /Contents {4 + 2 * n} 0 R /Resources << /Font << "
            f"/F1 {font} >> >> >>"
        )
        shown = f"BT /F1 12 Tf 72 720 Td ({' '.join(words(draw, 12))}) Tj ET"
        parts.append(f"<< /Length {len(shown)} >>\nstream\n{shown}\nendstream")
    out, places, at = ["%PDF-1.4\n"], [], len("%PDF-1.4\n")
    for n, each in enumerate(parts, 1):
        places.append(at)
        out.append(f"{n} 0 obj\n{each}\nendobj\n")
        at += len(out[-1])
    table = "".join(f"{place:010} 00000 n \n" for place in places)
    return "".join(
        [
            *out,
            f"xref\n0 {len(places) + 1}\n0000000000 65535 f \n",
            table,
            f"trailer << /Size {len(places) + 1} /Root 1 0 R >>\nstartxref\n{at}\n%%EOF\n",
        ]
    )


# ---- problems


@maker
def satisfiability(draw: random.Random, number: int) -> Made:
    yield f"p cnf {number} {number * 10 // 3}\n"
    for _ in range(number * 10 // 3):
        yield " ".join(
            str(draw.choice((-1, 1)) * each) for each in draw.sample(range(1, number + 1), draw.randint(3, 6))
        ) + " 0\n"


@maker
def linear(draw: random.Random, number: int) -> Made:
    yield "Maximize\n obj: " + " + ".join(f"{draw.randint(1, 40)} x{n}" for n in range(number)) + "\nSubject To\n"
    for n in range(number // 2):
        yield f" c{n}: " + " + ".join(
            f"{draw.randint(1, 20)} x{each}" for each in draw.sample(range(number), 25)
        ) + f" <= {draw.randint(50, 400)}\n"
    yield "End\n"


@maker
def answer_set(draw: random.Random, number: int) -> Made:
    yield "".join(f"e({draw.randrange(number)},{draw.randrange(number)}).\n" for _ in range(3 * number))
    yield (
        f"n(0..{number - 1}).\nt(X,Y) :- e(X,Y).\nt(X,Z) :- e(X,Y), e(Y,Z), X < Z.\n1 {{ c(X,1..4) }} 1 :- n(X).\n:- "
        f"e(X,Y), X != Y, c(X,C), c(Y,C), C > 3.\n"
    )


# ---- networks


@maker
def local_data(draw: random.Random, number: int) -> Made:
    yield "server:\n"
    yield from (f' local-data: "h{n}.e.org. A 10.{n % 250}.{n // 250 % 250}.{n % 7}"\n' for n in range(number))


@maker
def hosts(draw: random.Random, number: int) -> Made:
    yield "port=0\n"
    yield from (
        f"address=/{word(draw)}{n}.e.org/10.0.{n // 250 % 250}.{n % 250}\ndhcp-host={n % 97:02x}:11:22:33:44:55,h{n}\n"
        for n in range(number)
    )


@maker
def proxies(draw: random.Random, number: int) -> Made:
    yield (
        "defaults\n mode http\n timeout connect 1s\n timeout client 1s\n timeout server 1s\nfrontend f\n bind "
        "127.0.0.1:18999\n"
    )
    yield "".join(f" acl a{n} hdr(host) -i {word(draw)}.e.org\n use_backend b{n} if a{n}\n" for n in range(number))
    yield from (f"backend b{n}\n server s{n} 10.0.{n // 250}.{n % 250}:80 check\n" for n in range(number))


@maker
def light_servers(draw: random.Random, number: int) -> Made:
    yield 'server.document-root = "/tmp"\nserver.port = 18998\n'
    yield from (
        f'$HTTP["host"] == "{word(draw)}{n}.e.org" {{ server.document-root = "/tmp/{n}"\n dir-listing.activate = '
        f'"enable" }}\n'
        for n in range(number)
    )


@maker
def signatures(draw: random.Random, number: int) -> Made:
    for n in range(number):
        code = "".join(f"{draw.randrange(256):02X} " for _ in range(12))
        yield (
            f'rule r{n} {{ strings: $a="{word(draw)}{word(draw)}" $b={{ {code}}} $c=/{word(draw)}[0-9]{{2,'
            f"{3 + n % 6}}}x/ condition: any of them }}\n"
        )


@maker
def packets(draw: random.Random, number: int) -> Made:
    out = [struct.pack("<IHHIIII", 0xA1B2C3D4, 2, 4, 0, 0, 65535, 1)]
    for n in range(number):
        load = b"GET /%d HTTP/1.1\r\nHost: h%d\r\n\r\n" % (n, n % 97) if n % 3 else draw.randbytes(40)
        tcp = struct.pack(">HHIIBBHHH", 1024 + n % 5000, 80, n * 97, 0, 0x50, 0x18, 512, 0, 0)
        ip = struct.pack(
            ">BBHHHBBH4s4s",
            0x45,
            0,
            40 + len(load),
            n % 65536,
            0,
            64,
            6,
            0,
            bytes([10, 0, n % 251, n % 241]),
            bytes([10, 1, 2, n % 13]),
        )
        frame = b"\x02" * 12 + b"\x08\x00" + ip + tcp + load
        out.append(struct.pack("<IIII", 1000 + n // 100, n % 100 * 1000, len(frame), len(frame)) + frame)
    return b"".join(out)


# ---- places and genes


@maker
def features_of_map(draw: random.Random, number: int) -> Made:
    def ring() -> list:
        made = [[draw.uniform(-180, 180), draw.uniform(-80, 80)] for _ in range(draw.randint(4, 20))]
        return [*made, made[0]]

    found = [
        {
            "type": "Feature",
            "properties": {"id": n, "name": word(draw)},
            "geometry": {"type": "Polygon", "coordinates": [ring()]},
        }
        for n in range(number)
    ]
    return json.dumps({"type": "FeatureCollection", "features": found})


@maker
def track(draw: random.Random, number: int) -> Made:
    yield '<?xml version="1.0"?>\n<gpx version="1.1" xmlns="http://www.topografix.com/GPX/1/1">\n'
    yield from (
        f'<wpt lat="{draw.uniform(-80, 80):.5f}" lon="{draw.uniform(-180, 180):.5f}"><name>{word(draw)}'
        f"{n}</name></wpt>\n"
        for n in range(number)
    )
    yield "</gpx>\n"


def bases(draw: random.Random, number: int) -> str:
    return "".join(draw.choices("ACGT", k=number))


@maker
def genome(draw: random.Random, number: int) -> Made:
    return (f">c{n}\n{bases(draw, 5000)}\n" for n in range(number))


@maker
def proteins(draw: random.Random, number: int) -> Made:
    one = "".join(draw.choices("ACDEFGHIKLMNPQRSTVWY", k=120))
    for n in range(number):
        yield f">p{n}\n" + "".join(
            each if draw.random() > 0.15 else draw.choice("ACDEFGHIKLMNPQRSTVWY") for each in one
        ) + "\n"


@maker
def reads(draw: random.Random, number: int) -> Made:
    return (f"@r{n}\n{bases(draw, 100)}\n+\n{'I' * 100}\n" for n in range(number))


@maker
def spans(draw: random.Random, number: int) -> Made:
    for n in range(number):
        begin = draw.randrange(9_000_000)
        yield f"c{n % 5}\t{begin}\t{begin + draw.randrange(50, 5000)}\tg{n}\t{n % 100}\t+\n"


# ---- scripts


@maker
def tcl_script(draw: random.Random, number: int) -> Made:
    yield (
        f"for {{set i 0}} {{$i < {number}}} {{incr i}} {{ set h(key$i) [list $i [string repeat n [expr {{$i % 40}}]] "
        f"x] }}\n"
    )
    yield (
        f"for {{set i 0}} {{$i < {number}}} {{incr i 3}} {{ unset h(key$i) }}\nputs [llength [lsort [array names "
        f"h]]]\n"
    )


@maker
def prolog(draw: random.Random, number: int) -> Made:
    yield ":- dynamic f/3.\n"
    yield (
        f"run :- forall(between(1,{number},I),(atom_concat(k,I,A),assertz(f(A,I,[I,A])))), "
        f"aggregate_all(count,f(_,_,_),N), write(N), nl.\n"
    )
    yield ":- initialization((run,halt)).\n"


@maker
def java_script(draw: random.Random, number: int) -> Made:
    yield (
        f"var h = {{}}, l = [];\nfor (var i = 0; i < {number}; i++) {{ h['key' + i] = {{ id: i, name: 'n' + i, tags: "
        f"[i, i + 1] }}; l.push('x' + i); }}\n"
    )
    yield (
        f"for (var j = 0; j < {number}; j += 3) {{ delete h['key' + j]; }}\nl.sort();\nvar n = 0; for (var k in h) "
        f"{{ n++; }}\n"
    )


@maker
def basic(draw: random.Random, number: int) -> Made:
    yield f'dim a$({number})\nfor i = 1 to {number}\na$(i) = "key" + str$(i) + "n" + str$(i * 7)\nnext i\nprint a$(7)\n'


# ---- forms of one program each


@maker
def doxygen_options(draw: random.Random, number: int) -> Made:
    return (
        "INPUT = a.h\nQUIET = YES\nWARNINGS = NO\nGENERATE_LATEX = NO\nEXTRACT_ALL = YES\nOUTPUT_DIRECTORY = "
        "out.dox\nSEARCHENGINE = NO\n"
    )


@maker
def mairix_options(draw: random.Random, number: int) -> Made:
    return "base=.\nmbox=a.mbox\nmfolder=out.found\ndatabase=out.mairix\n"


@maker
def aligned_proteins(draw: random.Random, number: int) -> Made:
    return proteins(draw, number)


# ---- folders


@maker
def folder(draw: random.Random, number: int) -> Made:
    raise AssertionError("a folder has no text")


def write_folder(draw: random.Random, number: int, path: str) -> None:
    """A tree of small files, of which some have the same bytes."""
    for n in range(number):
        place = os.path.join(path, f"d{n % 40}", f"e{n % 7}")
        os.makedirs(place, exist_ok=True)
        with open(os.path.join(place, f"{word(draw)}{n}.txt"), "w", encoding="ascii") as file:
            file.write("same\n" * 9 if n % 9 == 0 else f"{n} {' '.join(words(draw, 1 + n % 60))}\n")
    for top, folders, files in os.walk(path):
        for each in [*folders, *files]:
            os.utime(os.path.join(top, each), (SEED, SEED))


def make_file(kind: str, number: str, path: str) -> None:
    draw = random.Random(f"{SEED} {kind} {number}")
    if kind == "folder":
        write_folder(draw, int(number), path)
        return
    made = MAKERS[kind](draw, int(number))
    with open(f"{path}.{os.getpid()}", "wb") as file:
        file.write(text_of(made))
    os.rename(f"{path}.{os.getpid()}", path)


def write(named: str, place: str, shared: str) -> None:
    """Makes the files of a program's row, `FILE=MAKER:NUMBER ..`, in a folder. Those of several programs are made
    once, in a shared one."""
    for each in named.split():
        name, made = each.split("=")
        kind, number = made.split(":")
        path, kept = os.path.join(place, name), os.path.join(shared, f"{kind}_{number}")
        if os.path.exists(path):
            continue
        if kind == "folder":
            make_file(kind, number, path)
            continue
        if not os.path.exists(kept):
            os.makedirs(shared, exist_ok=True)
            make_file(kind, number, kept)
        os.link(kept, path)
