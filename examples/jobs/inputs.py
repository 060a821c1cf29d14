#!/usr/bin/env python3
"""Writes what these read: inputs.py FOLDER. The same each time.

  z3 a.smt2
  jq 'map(select(.price>0.5))|length' a.json
  cppcheck a.c
  qpdf --qdf --object-streams=disable a.pdf /dev/null
  ledger -f a.ledger bal
  tidy -q a.html
  yosys -q -p 'read_verilog a.v; synth -flatten'
  abcm2ps -q -O a.ps a.abc"""
import json
import random
import sys

draw = random.Random(7)


def smt2():
    yield "(set-logic QF_BV)"
    yield from (f"(declare-fun x{n} () (_ BitVec 32))" for n in range(400))
    for n in range(900):
        a, b, c = (f"x{draw.randrange(400)}" for _ in range(3))
        if n < 260:
            left = f"(bvadd {a} (bvand {b} #x{draw.randrange(1 << 32):08x}))"
            yield f"(assert (= {left} (bvxor {c} (bvor {a} #x{draw.randrange(1 << 32):08x}))))"
        else:
            yield f"(assert (bvule (bvand {a} #x0fffffff) (bvor {b} {c})))"
    yield "(check-sat)\n(get-model)"


def verilog():
    yield "module m(input clk, input [31:0] a, input [31:0] b, output reg [31:0] q);"
    yield from (f"reg [31:0] r{n};" for n in range(11))
    yield "always @(posedge clk) begin\n r0 <= a ^ b;"
    for n in range(1, 11):
        yield f" r{n} <= (r{n - 1} {draw.choice('+-&|^')} (a >> {draw.randrange(8)})) {draw.choice('+-^')} b;"
    yield " q <= r10;\nend\nendmodule"


def page():
    yield "<html><head><title>t</title></head><body>"
    for n in range(7000):
        link = f"<a href='x{n}'>link {'w' * draw.randrange(60)}</a>"
        yield f"<div class=c{n % 17}><p>para {n} <b>bold<i>it</b></i> {link}</p><table><tr><td>{n}<td>{n * 7}</table></div>"
    yield "</body></html>"


def journal():
    for n in range(15000):
        yield f"2020/{1 + n % 12:02}/{1 + n % 28:02} Payee {draw.randrange(500)}"
        yield (f"    Expenses:Cat{draw.randrange(80)}:Sub{draw.randrange(9)}    "
               f"${draw.randrange(1, 9999)}.{draw.randrange(100):02}\n    Assets:Bank{draw.randrange(5)}\n")


def record(n):
    return {"id": n, "name": "n" * draw.randrange(5, 40), "price": draw.random(),
            "tags": [str(draw.randrange(1000)) for _ in range(draw.randrange(4))]}


def document(pages=12000):
    font = "<< /Type /Font /Subtype /Type1 /BaseFont /Helvetica >>"
    kids = " ".join(f"{n} 0 R" for n in range(3, 3 + 2 * pages, 2))
    objects = ["<< /Type /Catalog /Pages 2 0 R >>", f"<< /Type /Pages /Count {pages} /Kids [ {kids} ] >>"]
    for n in range(pages):
        objects.append(f"<< /Type /Page /Parent 2 0 R /MediaBox [0 0 612 792] /Contents {4 + 2 * n} 0 R "
                       f"/Resources << /Font << /F1 {font} >> >> >>")
        text = f"BT /F1 12 Tf 72 720 Td ({'x' * draw.randrange(20, 400)}) Tj ET"
        objects.append(f"<< /Length {len(text)} >>\nstream\n{text}\nendstream")
    out, places = "%PDF-1.4\n", []
    pieces = [out]
    at = len(out)
    for n, each in enumerate(objects, 1):
        places.append(at)
        pieces.append(f"{n} 0 obj\n{each}\nendobj\n")
        at += len(pieces[-1])
    table = "".join(f"{place:010} 00000 n \n" for place in places)
    end = f"trailer << /Size {len(places) + 1} /Root 1 0 R >>\nstartxref\n{at}\n%%EOF\n"
    return "".join([*pieces, f"xref\n0 {len(places) + 1}\n0000000000 65535 f \n", table, end])


def source():
    yield "#include <stdlib.h>\nstruct s { int a, b; char *p; };"
    for n in range(330):
        yield (f"int f{n}(struct s *x, int n) {{ int t[{8 + n % 9}]; int q = n * {n}; for (int k = 0; k < n; k++) {{ "
               "if (x->a > k) q += x->b; else q -= t[k % 8]; "
               f"x->p = malloc(k + {n}); if (!x->p) return -1; x->p[0] = q; free(x->p); }} "
               f"return q + f{max(n - 1, 0)}(x, n - 1); }}")


def tunes():
    notes = random.Random(3)
    for number in range(1, 601):
        yield f"X:{number}\nT:Tune {number} of many\nC:Somebody\nM:4/4\nL:1/8\nQ:1/4={notes.randrange(60, 160)}\nK:{notes.choice('CDEFGA')}"
        for line in range(16):
            bars = ("".join(notes.choice("ABCDEFGabcdefg") + notes.choice(["", "", "2", ""]) for _ in range(8)) for _ in range(4))
            yield "".join(f"{bar}|" for bar in bars)
            if line % 4 == 0:
                yield "w: " + " ".join(notes.choice(["la", "lo", "li", "tra"]) for _ in range(10))
        yield ""


def write(name, text):
    with open(f"{sys.argv[1]}/{name}", "w", encoding="ascii") as file:
        file.write(text)


for name, lines in (("a.smt2", smt2), ("a.v", verilog), ("a.html", page), ("a.ledger", journal), ("a.abc", tunes)):
    write(name, "".join(f"{line}\n" for line in lines()))
write("a.json", json.dumps([record(n) for n in range(90000)]))
write("a.pdf", document())
write("a.c", "".join(f"{line}\n" for line in source()))
