"""Keeps 400 pieces of a file, which is read by 16 and 64 KiB with the header of a bytes object: chunks.py FILE."""
import random
import sys

draw, kept = random.Random(4), []
with open(sys.argv[1], "rb", buffering=0) as file:
    for n in range(600):
        file.seek(draw.randrange(400_000))
        kept.append(file.read(65536 - 33 if n % 3 else 16384 - 33))
        if len(kept) > 400:
            kept.pop(draw.randrange(400))
print(len(kept))
