#!/usr/bin/env python3
"""Writes models and a log of N declared events, each of a new symbol of 32 bytes, into a folder.

usage: colliding.py random|SEED N FOLDER      SEED is a number below 2^64
       colliding.py values random|SEED N      a models text with such symbols as values of attributes, up to 16384

With `random` the symbols are random. With a seed all of them have one hash in a table of symbols of that seed
(crates/crs_base/src/symbol_text.rt): `crs model` has the seed 0, and `crs run` a random one at each start.

How they are made: the hasher takes 16 bytes at a time, and multiplies the first eight, xor its state, by the
last eight, xor a constant. So where the state behind 16 bytes looks like eight bytes of a symbol, these stand
next, the product is 0, and the last eight bytes are free.
"""

import itertools
import random
import string
import sys

WORD = 2 ** 64 - 1
MULTIPLIER = 0x9e3779b97f4a7c15
MODELS = "message a 1\nmessage z 0\nchronicle c {\n  event(z, t)\n}\n"
BYTES = (string.ascii_letters + string.digits + "_.-").encode()


def folded(a, b):
    product = a * b
    return (product & WORD) ^ (product >> 64)


def number(text):
    return int.from_bytes(text, "little")


def front(seed):
    """The first 24 bytes of symbols of 32 bytes whose hash is 0."""
    state = folded(0x243f6a8885a308d3 ^ seed, MULTIPLIER ^ 16)       # the seed is written as eight bytes
    state = (state + 32) & WORD                                     # the length of a symbol
    for word in itertools.product(BYTES, repeat=16):
        head = bytes(reversed(word))
        after = folded(number(head[:8]) ^ state, number(head[8:]) ^ MULTIPLIER).to_bytes(8, "little")
        if all(b in BYTES for b in after):
            return head + after
    sys.exit("no front for this seed")


def symbols(which, n):
    if which == "random":
        r = random.Random(7)
        return [bytes(r.choices(BYTES, k=32)).decode() for _ in range(n)]
    head = front(int(which)).decode()
    return [head + "%08d" % i for i in range(n)]


def values(which, n):
    """Lines of a models text."""
    found = symbols(which, n)
    return ["attribute v%d 0 in (%s)\n" % (i, ", ".join(found[i:i + 64])) for i in range(0, n, 64)]


def events(which, n):
    """Lines of a log."""
    for i, symbol in enumerate(symbols(which, n)):
        yield "%d a[%s]\n" % (i, symbol)
        if i % 16 == 15:
            yield "clock %d\n" % i
    yield "end\n"


def main():
    if len(sys.argv) != 4:
        sys.exit(__doc__)
    if sys.argv[1] == "values":
        sys.stdout.writelines(values(sys.argv[2], int(sys.argv[3])))
        return
    folder = sys.argv[3]
    with open(folder + "/models", "w") as f:
        f.write(MODELS)
    with open(folder + "/log", "w") as f:
        f.writelines(events(sys.argv[1], int(sys.argv[2])))


if __name__ == "__main__":
    main()
