"""Random program texts for bench/compare.

    python3 programs.py COUNT SEED

writes COUNT lines `ID BASE64TEXT`. The ID begins with w for a well-typed program, s for one with slips, d for a damaged one and
l for one near a limit.
"""

import base64
import random
import sys

from damage import damaged_bytes, damaged_words
from layout import text
from limits import limit
from writer import Writer


def one(random):
    """A kind and a text."""
    draw = random.random()
    if draw < 0.5:
        return "w", text(Writer(random).program(), random)
    if draw < 0.65:
        return "s", text(Writer(random, slip=random.choice((0.01, 0.05, 0.2))).program(), random)
    if draw < 0.75:
        return "d", text(damaged_words(Writer(random).program(), random), random)
    if draw < 0.83:
        return "d", damaged_bytes(text(Writer(random).program(), random), random)
    if draw < 0.85:
        return "d", damaged_bytes(limit(random), random)
    return "l", limit(random)


def main():
    count, seed = int(sys.argv[1]), int(sys.argv[2])
    source = random.Random(seed)
    for k in range(count):
        kind, program = one(source)
        print("%s%d %s" % (kind, k, base64.b64encode(program.encode("latin-1")).decode()))


main()
