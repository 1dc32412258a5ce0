#!/usr/bin/env python3
"""Draws docs/chronicle.svg: a chronicle over time, with its events, bound and window, the horizon, and the line.

usage: picture.py [PROGRAM] >docs/chronicle.svg

With PROGRAM, the built crs, it is run over the models and the log of the picture first, and nothing is drawn where
another line comes than the picture has.
"""
import subprocess
import sys
import tempfile
from pathlib import Path

DECLARED = "message on 1\nmessage off 1\nmessage low 1\n"
CHRONICLE = """chronicle drain {
  event(on[?b], t1)
  event(low[?b], t2)
  t2 - t1 in [5, 22]
  noevent(off[?b], (t1 + 1, t2))
}
"""
EVENTS = [(10, "on", "b1"), (14, "on", "b2"), (22, "off", "b2"), (31, "low", "b1"), (33, "low", "b2")]
DELAY, CLOCK = 5, 40
LINE = "drain at 40 t1=10 t2=31 ?b=b1"

LEFT, WIDTH, HEIGHT, FIRST, TICK = 290, 900, 400, 7, 15.5      # the time axis begins at LEFT with the date FIRST
ROWS = {"b1": 150, "b2": 250}
AXIS = 310
INK, QUIET, GOOD, BAD = "#222", "#667", "#2a7f3f", "#b03030"


def x(date):
    return LEFT + (date - FIRST) * TICK


def text(at, y, words, color=INK, anchor="start", kind="sans-serif", size=13):
    words = words.replace("&", "&amp;").replace("<", "&lt;")
    return (f'<text x="{at:g}" y="{y:g}" fill="{color}" text-anchor="{anchor}" font-family="{kind}" font-size="{size}" '
            f'xml:space="preserve">{words}</text>')


def line(x1, y1, x2, y2, color=INK, more=""):
    return f'<line x1="{x1:g}" y1="{y1:g}" x2="{x2:g}" y2="{y2:g}" stroke="{color}" {more}/>'


def box(x1, y1, x2, y2, color, opacity):
    return f'<rect x="{x1:g}" y="{y1:g}" width="{x2 - x1:g}" height="{y2 - y1:g}" fill="{color}" fill-opacity="{opacity}"/>'


def event(date, name, unit):
    y = ROWS[unit]
    return [f'<circle cx="{x(date):g}" cy="{y}" r="6" fill="{INK}"/>',
            text(x(date), y - 18, f"{name}[{unit}]", anchor="middle", kind="monospace"),
            text(x(date), y + 26, str(date), QUIET, "middle", size=12)]


def window(unit, first, end, color, words):
    y = ROWS[unit]
    return [box(x(first + 1), y - 11, x(end), y + 11, color, 0.25),
            text((x(first + 1) + x(end)) / 2, y + 44, words, color, "middle")]


def bound(first, low, high):
    y = ROWS["b1"] - 46
    return [line(x(first), y - 5, x(first), y + 5, QUIET, 'stroke-width="2"'),
            line(x(first), y, x(first + low), y, QUIET, 'stroke-dasharray="2 3"'),
            line(x(first + low), y, x(first + high), y, GOOD, 'stroke-width="3"'),
            *(line(x(first + end), y - 5, x(first + end), y + 5, GOOD, 'stroke-width="2"') for end in (low, high)),
            text((x(first + low) + x(first + high)) / 2, y - 8, "the bound: low is 5 to 22 ticks behind on", GOOD, "middle")]


def clocks():
    settled = CLOCK - DELAY
    return [box(LEFT - 8, 62, x(settled), AXIS, "#5577aa", 0.07),
            line(x(settled), 46, x(settled), AXIS, "#335599", 'stroke-width="2" stroke-dasharray="6 4"'),
            text(x(settled) - 6, 42, f"the horizon: {CLOCK} less the delay {DELAY}", "#335599", "end"),
            text(LEFT, 78, "settled", "#335599"),
            line(x(CLOCK), 46, x(CLOCK), AXIS + 34, INK, 'stroke-width="2"'),
            text(x(CLOCK), 42, f"clock {CLOCK}", kind="monospace", anchor="middle")]


def axis():
    return [line(LEFT - 8, AXIS, x(43), AXIS, INK), text(x(43) + 6, AXIS + 5, "ticks", QUIET),
            *(line(x(date), AXIS, x(date), AXIS + 6) for date in (10, 20, 30, 40)),
            *(text(x(date), AXIS + 20, str(date), QUIET, "middle", size=12) for date in (10, 20, 30))]


def told():
    y = AXIS + 60
    width = 8.4 * len(LINE)
    return [line(x(CLOCK), AXIS + 34, x(CLOCK), y - 21, INK, 'stroke-width="2"'),
            f'<rect x="{x(CLOCK) - width + 14:g}" y="{y - 20}" width="{width:g}" height="28" rx="4" fill="#fff" stroke="{INK}"/>',
            text(x(CLOCK) - width + 24, y - 1, LINE, kind="monospace"),
            text(x(CLOCK) - width + 2, y - 1, "the line", QUIET, "end")]


def picture():
    parts = [f'<rect width="{WIDTH}" height="{HEIGHT}" fill="#fff"/>']
    parts += [text(16, 110 + 20 * n, words, kind="monospace", size=12.5) for n, words in enumerate(CHRONICLE.splitlines())]
    parts += clocks() + axis()
    parts += window("b1", 10, 31, GOOD, "the window: no off[b1], so this is a drain")
    parts += window("b2", 14, 33, BAD, "off[b2] is in the window, so this is none")
    parts += bound(10, 5, 22)
    for one in EVENTS:
        parts += event(*one)
    parts += told()
    return "\n".join([f'<svg xmlns="http://www.w3.org/2000/svg" width="{WIDTH}" height="{HEIGHT}" viewBox="0 0 {WIDTH} {HEIGHT}">',
                      *parts, "</svg>"])


def line_of(program):
    """What the program prints of the picture's models and log."""
    log = f"delay {DELAY}\n" + "".join(f"{date} {name}[{unit}]\n" for date, name, unit in EVENTS) + f"clock {CLOCK}\n"
    with tempfile.TemporaryDirectory() as folder:
        for name, words in ("models", DECLARED + CHRONICLE), ("log", log):
            Path(folder, name).write_text(words)
        return subprocess.run([program, "run", "models", "log"], cwd=folder, capture_output=True, text=True).stdout


def main():
    if len(sys.argv) > 1:
        told_line = line_of(Path(sys.argv[1]).resolve())
        if told_line != LINE + "\n":
            sys.exit(f"picture: another line comes: {told_line}")
    print(picture())


if __name__ == "__main__":
    main()
