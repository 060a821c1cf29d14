#!/usr/bin/env python3
"""Writes records as JSON or as XML: records.py json|xml COUNT. The same each time."""
import random
import sys

kind, count = sys.argv[1], int(sys.argv[2])
draw = random.Random(7)
WORDS = "amber basalt cedar delta ember fjord granite harbour island juniper kelp lagoon meadow nectar orchard prairie".split()
print("[" if kind == "json" else "<records>")
for n in range(count):
    name = " ".join(draw.choices(WORDS, k=draw.randint(1, 6)))
    tags = draw.choices(WORDS, k=draw.randint(0, 4))
    if kind == "json":
        listed = ", ".join(f'"{tag}"' for tag in tags)
        print(f'{{"id": {n}, "name": "{name}", "tags": [{listed}], "price": {draw.random():.4f}}}{"," if n + 1 < count else ""}')
    else:
        listed = "".join(f"<tag>{tag}</tag>" for tag in tags)
        print(f'<record id="{n}"><name>{name}</name>{listed}<price>{draw.random():.4f}</price></record>')
print("]" if kind == "json" else "</records>")
