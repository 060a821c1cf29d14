#!/usr/bin/env python3
"""Writes a build for ninja, or a graph for dot: graphs.py ninja|dot COUNT. The same each time."""
import random
import sys

kind, count = sys.argv[1], int(sys.argv[2])
draw = random.Random(7)
if kind == "ninja":
    print("rule compile\n  command = cc -c $in -o $out")
    for n in range(count):
        print(f"build objects/part{n % 100}/file{n}.o: compile sources/part{n % 100}/file{n}.c")
else:
    print("digraph records {")
    for n in range(1, count):
        print(f'  "record {draw.randrange(n)}" -> "record {n}"')
    print("}")
