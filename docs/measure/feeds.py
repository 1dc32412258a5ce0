#!/usr/bin/env python3
"""A slow reading of what `crs feeds` prints, and random cases that compare a built program with it.

usage: feeds.py PROGRAM [--cases N] [--seed S]

Each case is a random model text and one to eight random logs. The program runs on them with and
without `--focus`; its standard output and its exit status are compared with those that the rules
below give. The reading of one log's lines, of patterns, bounds and windows is that of
definitions.py: all assignments are tried, and nothing is carried from one rise to the next but the
recognitions already known.
"""
import argparse, itertools, random, shutil, subprocess, sys, tempfile
from pathlib import Path
from types import SimpleNamespace

import definitions as one

def new_feed():
    return SimpleNamespace(delay=0, clock=0, horizon=0, ended=False)

def in_rounds(logs):
    """Each round has a line of each log that has one left, in the order of the logs: the feed's
    number, the line's number, both from 1, and the line."""
    numbered = [[(feed, number, *line) for number, line in enumerate(one.lines_of(log), 1)]
                for feed, log in enumerate(logs, 1)]
    return [line for turn in itertools.zip_longest(*numbered) for line in turn if line]

def at_rise(models, entries, before, horizon, mark, known):
    """The lines of what is new at a rise. A prompt chronicle binds the entries accepted before it,
    any other those dated before the common horizon."""
    accepted = sorted(entries[:before], key=lambda entry: entry[:3])
    settled = [entry for entry in sorted(entries, key=lambda entry: entry[:3]) if entry.date < horizon]
    lines = []
    for c in models.chronicles:
        now = one.recognised(c, accepted if c.prompt else settled, settled, horizon)
        new = [chosen for chosen in now if chosen not in known.get(c.name, {})]
        for chosen in sorted(new, key=lambda chosen: [entry[:3] for entry in chosen]):
            lines.append(one.recognition_line(c, mark, chosen, now[chosen]))
        known[c.name] = now
    return lines

def slow_feeds(models, logs):
    """The text of all logs and the status. A line is refused by the clocks of its own feed; the
    accepted entries are common, and are settled by the least horizon of all feeds."""
    feeds = [new_feed() for _ in logs]
    entries, lines, refused, known = [], [], False, {}
    for number, place, size, line in in_rounds(logs):
        if size <= 4096 and line.strip(" \t")[:1] in ("", "#"):
            continue  # a blank line or a comment, which is a turn all the same
        feed, item = feeds[number - 1], one.item_of(line)
        fault = one.fault_of(models, feed, size, item)
        common = min(f.horizon for f in feeds)
        if fault:
            refused = True
            lines.append(f"feed {number} line {place} {fault}")
        elif item[0] == "delay":
            feed.delay = item[1]
        elif item[0] == "event":
            if item[2] in models.names:
                entries.append(one.Entry(item[1], one.canonical(*item[2:]), len(entries), *item[2:]))
        else:
            feed.ended = item[0] == "end"
            feed.clock = one.AFTER_END if feed.ended else item[1]
            feed.horizon = one.AFTER_END if feed.ended else max(feed.horizon, item[1] - feed.delay)
            horizon = min(f.horizon for f in feeds)
            if horizon > common:
                mark = "end" if all(f.ended for f in feeds) else horizon
                lines += at_rise(models, entries, len(entries), horizon, mark, known)
    return "".join(line + "\n" for line in lines), int(refused)

def expected(models, logs):
    for chronicle in models.chronicles:
        if not one.meets_bounds(chronicle, [None] * len(chronicle.events)):
            return f"model line {chronicle.closing} inconsistent\n", 3
    return slow_feeds(models, logs)

def random_logs(rng, models):
    """Logs of which most move their horizons on, each with a delay of its own that may change."""
    count = rng.choice([1, 2, 2, 2, 3, 3, 4, 8])
    logs = [one.random_log(rng, models) for _ in range(count)]
    # lines of one log dealt to the others, so that they belong together
    if rng.random() < 0.5:
        dealt = [[] for _ in logs]
        for line in logs[0].splitlines(keepends=True):
            dealt[rng.randrange(count)].append(line if line.endswith("\n") else line + "\n")
        logs = ["".join(lines) for lines in dealt]
    closing = rng.choice(["clock 40\n", "clock 40\nend\n", "end\n", "\n# still here\nclock 30\n"])
    for place, log in enumerate(logs):
        if rng.random() < 0.7:
            logs[place] = log + "\n" * (not log.endswith("\n") and log != "") + closing
    if rng.random() < 0.1:
        logs[rng.randrange(count)] = ""
    return logs

def differs(program, models, logs, text, status, label):
    folder, different = tempfile.mkdtemp(prefix=f"feeds-{label}-"), False
    names = [f"log{number}" for number in range(1, len(logs) + 1)]
    one.save(folder, {"models": models, **dict(zip(names, logs))})
    for options in ([], ["--focus"]):
        words = [program, "feeds", *options, *(Path(folder, name) for name in ["models", *names])]
        done = subprocess.run(words, stdout=subprocess.PIPE, stderr=subprocess.DEVNULL, timeout=60)
        if (done.stdout.decode("latin-1"), done.returncode) != (text, status):
            print(f"case {label}{options}: {folder} differs")
            Path(folder, "expected").write_bytes(text.encode("latin-1"))
            different = True
    if not different:
        shutil.rmtree(folder)
    return different

def main():
    parser = argparse.ArgumentParser()
    parser.add_argument("program")
    parser.add_argument("--cases", type=int, default=200)
    parser.add_argument("--seed", type=int, default=1)
    words = parser.parse_args()
    counts = dict(cases=0, different=0, recognitions=0, refused=0, rejected=0)
    for case in range(words.cases):
        rng = random.Random(f"{words.seed} {case}")
        models, text = one.random_models(rng)
        logs = random_logs(rng, models)
        lines, status = expected(models, logs)
        counts["cases"] += 1
        counts["different"] += differs(words.program, text, logs, lines, status, f"{words.seed}-{case}")
        counts["recognitions"] += " at " in lines
        counts["refused"] += status == 1
        counts["rejected"] += status == 3
    print("  ".join(f"{name} {count}" for name, count in counts.items()))
    sys.exit(counts["different"] > 0)

if __name__ == "__main__":
    main()
