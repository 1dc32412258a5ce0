#!/usr/bin/env python3
"""Writes models and a log of a kind into a folder, as the files `models` and `log`.

usage: loads.py KIND N FOLDER [P]        N is the number of events, or of what the kind counts

  drill       the log and the models of `crs drill 7 N`; P is the events between two clocks (16)
  units       the same with 20,000 units in place of 64, and bounds as much wider
  undeclared  events of names that no model declares
  declared    declared events out of order that no pattern names, of P symbols (64)
  refused     lines that are no statement
  clocks      N clocks, with P instances alive (0)
  alive       instances that wait up to P ticks (1000) for an event that never comes
  single      chronicles of one event: each event is recognised at the next clock
  burst       the same, all at one mark
  fifth       an `a` and a `b` of one unit among five events: a fifth as many recognitions as events
  late        t2 - t1 in [20000, 20010]: instances wait long before they can go on
  count       `occurs` and `noevent` over 500 ticks, on 256 units
  hold        `hold` over 300 ticks, on 256 units
  own         P chronicles (1), each of two messages of its own
  same        P chronicles (1), all of the same two messages
  rare        two frequent events of level 1 on 16 units, and one of level 0 that comes once in P events (1000)

Where each event of the second half may concern what came of each one of the first:

  site        a[?s, ?u] of one site, and then `b` of the same site and of another unit
  least       `occurs` of 3 or more in a window without an end
  ahead       `noevent` in a window far ahead
  second      `noevent` of one second argument, and then events of another
  back        `noevent` back over events of another unit
  again       `hold`, and then its value told again
  levels      with `--focus`: an event of level 0, back over those of level 1 of another unit
"""

import sys


# declarations, the chronicle, a line before the events, an event of the first half and one of the second
HAZARDS = {
    "site": (["message a 2", "message b 2"], ["event(a[?s, ?u], t1)", "event(b[?s, ?u], t2)", "t2 - t1 in [0, 10000000]"],
             "0 x", "a[s,u#]", "b[s,w]"),
    "least": (["message a 0"], ["event(a, t1)", "occurs((3, inf), a, (t1, t1 + 10000000))"], "0 x", "a", "a"),
    "ahead": (["message a 0", "message b 0"], ["event(a, t1)", "noevent(b, (t1 + 5000000, t1 + 5000010))"],
              "0 x", "a", "b"),
    "second": (["message a 1", "message b 2"], ["event(a[?u], t1)", "noevent(b[?u, x], (t1, t1 + 10000000))"],
               "0 x", "a[u]", "b[u,y]"),
    "back": (["message a 1", "message b 1"], ["event(a[?u], t1)", "noevent(b[?u], (t1 - 10000000, t1))"],
             "0 x", "b[w]", "a[u]"),
    "again": (["message a 1", "attribute v 1"], ["event(a[?u], t1)", "hold(v[?u]: on, (t1, t1 + 10000000))"],
              "0 v[u]: (off, on)", "a[u]", "v[u]: (on, on)"),
    "levels": (["message a 1", "message b 1"], ["event(a[?u], t1) level 1", "event(b[?u], t2)", "t2 - t1 in [0, 10000000]"],
               "0 x", "a[w]", "b[u]"),
}


class Draws:
    """The generator of drills: a number below m at each call."""

    def __init__(self, seed):
        self.x = seed

    def __call__(self, m):
        self.x = self.x * 48271 % 2147483647
        return self.x % m


def pair(name, low, high, a="a", b="b"):
    return ["chronicle %s {" % name, "  event(%s[?u], t1)" % a, "  event(%s[?u], t2)" % b,
            "  t2 - t1 in [%d, %d]" % (low, high), "}"]


def drill_models(bound, width):
    chain = ["chronicle chain {"]
    chain += ["  event(m%d[?u], t%d) level 1" % (i, i) for i in range(7)] + ["  event(m7[?u], t7)"]
    chain += ["  t%d - t%d in [0, %d]" % (i + 1, i, bound) for i in range(7)] + ["}"]
    quiet = ["chronicle quiet {", "  event(m7[?u], t0)", "  noevent(m0[?u], (t0 + 1, t0 + %d))" % width, "}"]
    return ["message m%d 1" % i for i in range(8)] + chain + quiet


def drill_log(n, units, every):
    draw = Draws(7)
    base, stage = 0, [0] * units
    yield "delay 8"
    for k in range(1, n + 1):
        base += draw(3)
        date = max(0, base - draw(8))
        unit = draw(units)
        if draw(4) == 0:
            kind = draw(8)
        else:
            kind = stage[unit]
            stage[unit] = (kind + 1) % 8
        yield "%d m%d[u%d]" % (date, kind, unit)
        if k % every == 0:
            yield "clock %d" % base
    yield "end"


def ticking(n, event):
    """Events up to 7 ticks out of order, a clock behind each sixteenth; `event(draw, k)` is one without its date."""
    draw = Draws(7)
    base = 8
    yield "delay 8"
    for k in range(1, n + 1):
        base += draw(3)
        yield "%d %s" % (base - draw(8), event(draw, k))
        if k % 16 == 0:
            yield "clock %d" % base
    yield "end"


def hazard(kind, n):
    declared, body, before, first, second = HAZARDS[kind]
    models = declared + ["chronicle c {"] + ["  " + line for line in body] + ["}"]
    events = ("%d %s" % (i, (first if 2 * i <= n else second).replace("#", str(i))) for i in range(1, n + 1))
    return models, [before, *events, "end"]


def load(kind, n, p):
    if kind in HAZARDS:
        return hazard(kind, n)
    ab = ["message a 1", "message b 1"]
    if kind == "drill":
        return drill_models(100, 60), drill_log(n, 64, p or 16)
    if kind == "units":
        return drill_models(31250, 18750), drill_log(n, 20000, 16)
    if kind == "undeclared":
        return ab + pair("c", 1, 5), ("%d telemetry.x%d[frame%d]" % (i, i % 97, i % 13) for i in range(n))
    if kind == "declared":
        p = p or 64
        return ab + ["message z 0", "chronicle c {", "  event(z, t1)", "}"], ticking(n, lambda draw, k: "a[u%d]" % (k % p))
    if kind == "refused":
        return ab + pair("c", 1, 5), ("%d a[u1" % i for i in range(n))
    if kind == "clocks":
        p = p or 0
        begun = ["%d a[u%d]" % (i, i % 64) for i in range(p)]
        return ab + pair("c", 0, 10 ** 9), begun + ["clock %d" % (p + i) for i in range(n)]
    if kind == "alive":
        return ab + pair("c", 0, p or 1000), ticking(n, lambda draw, k: "a[u%d]" % draw(64) if k % 2 else "b[v%d]" % draw(64))
    if kind == "single":
        return ab + ["chronicle c {", "  event(a[?u], t1)", "}"], ticking(n, lambda draw, k: "a[u%d]" % draw(64))
    if kind == "burst":
        return ["message a 0", "chronicle c {", "  event(a, t1)", "}"], ["%d a" % i for i in range(n)] + ["end"]
    if kind == "fifth":
        def one(draw, k):
            unit = k // 5 % 256
            return ["a[u%d]" % unit, "b[u%d]" % unit][k % 5] if k % 5 < 2 else "z[u%d]" % draw(256)
        return ab + ["message z 1"] + pair("c", -20, 20), ticking(n, one)
    if kind == "late":
        return ab + pair("c", 20000, 20010), ticking(n, lambda draw, k: "%s[u%d]" % ("ab"[draw(2)], draw(4)))
    if kind == "count":
        models = ab + ["message z 1",
                       "chronicle some {", "  event(a[?u], t1)", "  occurs((3, 5), b[?u], (t1, t1 + 500))", "}",
                       "chronicle none {", "  event(a[?u], t1)", "  noevent(z[?u], (t1, t1 + 500))", "}"]
        return models, ticking(n, lambda draw, k: "%s[u%d]" % ("zabababa"[draw(8)], draw(256)))
    if kind == "hold":
        models = ["message a 1", "attribute v 1 in (on, off)",
                  "chronicle steady {", "  event(a[?u], t1)", "  hold(v[?u]: on, (t1, t1 + 300))", "}"]

        def event(draw, k):
            unit, x = draw(256), draw(16)
            return "v[u%d]: (off, on)" % unit if x < 3 else "v[u%d]: (on, off)" % unit if x == 3 else "a[u%d]" % unit
        return models, ticking(n, event)
    if kind == "own":
        p = p or 1
        models = ["message %s%d 1" % (x, i) for i in range(p) for x in "ab"]
        for i in range(p):
            models += pair("c%d" % i, 1, 100, "a%d" % i, "b%d" % i)
        return models, ticking(n, lambda draw, k: "%s%d[u%d]" % ("ab"[draw(2)], draw(p), draw(64)))
    if kind == "same":
        models = ab[:]
        for i in range(p or 1):
            models += pair("c%d" % i, 1, 100 + i)
        return models, ticking(n, lambda draw, k: "%s[u%d]" % ("ab"[draw(2)], draw(64)))
    if kind == "rare":
        p = p or 1000
        models = ["message often 1", "message mid 1", "message rare 1", "chronicle lv {",
                  "  event(often[?u], t1) level 1", "  event(mid[?u], t2) level 1", "  event(rare[?u], t3)",
                  "  t2 - t1 in [1, 200]", "  t3 - t1 in [0, 2000]", "}"]
        return models, ticking(n, lambda draw, k: "%s[u%d]" % ("rare" if k % p == 0 else ["often", "mid"][draw(2)], draw(16)))
    sys.exit(__doc__)


def main():
    if len(sys.argv) not in (4, 5):
        sys.exit(__doc__)
    kind, n, folder = sys.argv[1], int(sys.argv[2]), sys.argv[3]
    models, log = load(kind, n, int(sys.argv[4]) if len(sys.argv) == 5 else None)
    for name, lines in ("models", models), ("log", log):
        with open(folder + "/" + name, "w") as f:
            f.writelines(line + "\n" for line in lines)


if __name__ == "__main__":
    main()
