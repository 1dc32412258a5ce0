#!/usr/bin/env python3
"""Writes models, a log and an output of claims of a kind into a folder, as `models`, `log` and `output`.

usage: claims.py KIND MB FOLDER        MB is the size of the output, of `log` the log's

  pairs    each of 1400 entries with each of 1400 others: no claim has a fault, and each entry is cited often
  wide     eight events, of 40 entries in all orders
  single   a claim for each entry, all at one mark
  marks    a claim and a mark for each entry
  points   a claim for each entry, of a chronicle with 23 points without an event and 256 bounds
  walks    a claim for each entry, of a chronicle whose window is as long as the log (MB is small here)
  refused  lines that claim nothing
  empty    lines without a byte
  log      a log of this size, and one claim
"""
import itertools, sys
from pathlib import Path

ONE = "message a 0\nchronicle c {\n  event(a, t1)\n}\n"

def pairs(size):
    models = "message a 0\nmessage b 0\nchronicle c {\n  event(a, t1)\n  event(b, t2)\n  t2 - t1 in [1, 9]\n}\n"
    both = itertools.product(range(1400), range(1400, 2800))
    return models, "5 a\n" * 1400 + "6 b\n" * 1400 + "clock 9\n", (f"c at 9 t1=5 t2=6 cites {i} {j}\n" for i, j in both)

def wide(size):
    models = "message a 0\nchronicle c {\n" + "".join(f"  event(a, t{i})\n" for i in range(8)) + "}\n"
    dates = " ".join(f"t{i}=5" for i in range(8))
    lists = itertools.permutations(range(40), 8)
    return models, "5 a\n" * 40 + "clock 9\n", (f"c at 9 {dates} cites {' '.join(map(str, p))}\n" for p in lists)

def single(size, models=ONE):
    count = size // 20
    return models, "5 a\n" * count + "clock 9\n", (f"c at 9 t1=5 cites {i}\n" for i in range(count))

def marks(size):
    count = size // 20
    return ONE, "".join(f"{i} a\nclock {i + 1}\n" for i in range(count)), (f"c at {i + 1} t1={i} cites {i}\n" for i in range(count))

def points(size):
    names = ["t1"] + [f"p{i}" for i in range(23)]
    bounds = [f"  {later} - {earlier} in [1, 5]\n" for earlier, later in zip(names, names[1:])][::-1]
    models = ONE[:-2] + "".join(f"  point {name}\n" for name in names[1:]) + "".join((bounds * 12)[:256]) + "}\n"
    return single(size, models)

def walks(size):
    models = "message a 0\nmessage x 0\nchronicle c {\n  event(a, t1)\n  occurs((0, inf), x, (t1 - 1000000, t1 + 1))\n}\n"
    count = size // 24
    log = "".join(f"{i} a\n{i} x\n" for i in range(count)) + f"clock {count}\n"
    return models, log, (f"c at {count} t1={i} cites {2 * i}\n" for i in range(count))

def refused(size):
    return ONE, "5 a\nclock 9\n", itertools.repeat("line 6 late 12 13\n")

def empty(size):
    return ONE, "5 a\nclock 9\n", itertools.repeat("\n")

def log(size):
    return ONE, "5 a\n" * (size // 4) + "clock 9\n", iter(["c at 9 t1=5 cites 0\n"])

KINDS = {kind.__name__: kind for kind in (pairs, wide, single, marks, points, walks, refused, empty, log)}

def main():
    if len(sys.argv) != 4 or sys.argv[1] not in KINDS:
        sys.exit(__doc__)
    size, folder = int(float(sys.argv[2]) * 2**20) - 100, Path(sys.argv[3])
    folder.mkdir(parents=True, exist_ok=True)
    models, text, lines = KINDS[sys.argv[1]](size)
    (folder / "models").write_text(models)
    (folder / "log").write_text(text)
    with open(folder / "output", "w") as output:
        for line in lines:
            size -= len(line)
            if size < 0:
                break
            output.write(line)

if __name__ == "__main__":
    main()
