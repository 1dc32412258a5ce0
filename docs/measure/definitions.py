#!/usr/bin/env python3
"""A slow reading of what `crs run` prints, and random cases that compare a built program with it.

usage: definitions.py PROGRAM [--cases N] [--seed S]

Each case is a random model text and a random log. The program runs on both three times: `run`,
`run --summary` and `run --focus --summary`. Its standard output and its exit status are compared
with those that the rules below give. All lists of entries are tried, all windows are counted over
all settled entries, and nothing is carried from one mark to the next but the recognitions already
known. Bytes are read as Latin-1 text, one character each, so texts compare as their bytes do.
"""
import argparse, functools, itertools, random, re, shutil, subprocess, sys, tempfile
from collections import namedtuple
from pathlib import Path
from types import SimpleNamespace

LAST_DATE = 2**40 - 1
AFTER_END = 2**42  # the horizon behind `end`: above the end of every window
OPTIONS = ([], ["--summary"], ["--focus", "--summary"])

# A term is a symbol, `*` or a variable with its question mark. A declared name has its arity,
# whether it is an attribute, and the list of its new values if it has one.
Pattern = namedtuple("Pattern", "name terms change")
Event = namedtuple("Event", "pattern point level")
Bound = namedtuple("Bound", "later earlier low high")  # low <= later - earlier <= high
Window = namedtuple("Window", "kind least most pattern start end")  # a hold's change: (*, value)
Entry = namedtuple("Entry", "date text arrival name args change")  # its key first

# ---- Lines of a log
WORD = r"[A-Za-z0-9_.-]{1,64}"
EVENT = re.compile(rf"({WORD})[ \t]+({WORD})[ \t]*(?:\[([^][]*)\][ \t]*)?"
                   rf"(?::[ \t]*\([ \t]*({WORD})[ \t]*,[ \t]*({WORD})[ \t]*\))?")
SETTING = re.compile(rf"(delay|clock)[ \t]+({WORD})")

def lines_of(log):
    """Lines end with a line feed, the last may lack it, and one return before it is dropped.
    A line's size counts that return."""
    parts = log.split("\n")
    rest = parts.pop()
    return [(len(p), p[:-1] if p.endswith("\r") else p) for p in parts] + [(len(rest), rest)] * bool(rest)

def item_of(line):
    """The item that a line is: its kind and its parts, or None where it has no form of an item.
    A number is a word of 1 to 19 digits, and is at most the last date."""
    line = line.strip(" \t")
    match = SETTING.fullmatch(line) or EVENT.fullmatch(line)
    if not match:
        return ("end",) if line == "end" else None
    number = match[2] if match.re is SETTING else match[1]
    if not re.fullmatch("[0-9]{1,19}", number) or int(number) > LAST_DATE:
        return None
    if match.re is SETTING:
        return match[1], int(number)
    args = () if match[3] is None else tuple(arg.strip(" \t") for arg in match[3].split(","))
    if not all(re.fullmatch(WORD, arg) for arg in args):
        return None  # an empty list, an empty place in it, or a byte that no word has
    return "event", int(number), match[2], args, match[4] and (match[4], match[5])

def canonical(name, args, change):
    """The text of an entry: no blanks, and no brackets where there are no arguments."""
    text = name + ("[" + ",".join(args) + "]" if args else "")
    return text + (":(" + ",".join(change) + ")" if change else "")

# ---- Patterns, bounds, values and windows
def terms_of(pattern):
    return pattern.terms + (pattern.change or ())

def grown(binding, pattern, entry):
    """The least binding beyond this one under which the pattern equals the entry, or None. They
    are equal where the names are, and term for term, in a change too, the term is `*`, the same
    symbol, or a variable that has this symbol."""
    if (pattern.name, len(pattern.terms)) != (entry.name, len(entry.args)):
        return None
    if (pattern.change is None) != (entry.change is None):
        return None
    result = dict(binding)
    for term, symbol in zip(terms_of(pattern), entry.args + (entry.change or ())):
        if term.startswith("?"):
            if result.setdefault(term, symbol) != symbol:
                return None
        elif term not in ("*", symbol):
            return None
    return result

def binding_of(chronicle, chosen):
    """The least binding for the events that have an entry, or None where it is not allowed: no
    entry is given twice, a variable with a list has a value of it, and two variables that must
    differ do so once both have a value."""
    given = [entry.arrival for entry in chosen if entry]
    binding = {} if len(set(given)) == len(given) else None
    for event, entry in zip(chronicle.events, chosen):
        if entry and binding is not None:
            binding = grown(binding, event.pattern, entry)
    if binding is None or any(v in binding and binding[v] not in chronicle.sets[v] for v in chronicle.sets):
        return None
    same = any(u in binding and binding[u] == binding.get(v) for u, v in chronicle.differs)
    return None if same else binding

@functools.lru_cache(maxsize=200_000)
def dates_exist(points, bounds, known, earliest):
    """Are there whole dates, negative ones too, for all points that meet the bounds, where some
    points have known dates and some an earliest date? Each demand says that one point lies at
    most so much after another, date 0 being one more point. Dates exist exactly where no circle
    of demands adds up to less than nothing, and then shortening the paths comes to rest."""
    demands = [(b.earlier, b.later, b.high) for b in bounds if b.high is not None]
    demands += [(b.later, b.earlier, -b.low) for b in bounds if b.low is not None]
    demands += [(0, point, date) for point, date in known]
    demands += [(point, 0, -date) for point, date in known + earliest]
    far = dict.fromkeys((0,) + points, 0)
    for _ in range(len(far) + 1):
        resting = True
        for start, end, most in demands:
            if far[start] + most < far[end]:
                far[end], resting = far[start] + most, False
        if resting:
            return True
    return False

def meets_bounds(chronicle, chosen, waiting=(), horizon=0):
    """Bound events have their entries' dates, and the waiting ones come at the horizon or later."""
    events = chronicle.events
    known = tuple((event.point, entry.date) for event, entry in zip(events, chosen) if entry)
    earliest = tuple((events[i].point, horizon) for i in waiting)
    points = tuple(event.point for event in events) + tuple(chronicle.free)
    return dates_exist(points, tuple(chronicle.bounds), known, earliest)

def value_at(settled, name, args, date):
    """The new value on which all changes of the greatest date up to this one agree, or None."""
    changes = [e for e in settled if (e.name, e.args) == (name, args) and e.change and e.date <= date]
    values = set(e.change[1] for e in changes if e.date == max(other.date for other in changes))
    return values.pop() if len(values) == 1 else None

def holds(settled, pattern, binding, start, end):
    """Has the attribute the wanted value at each date from start to before end? Between two dates
    of entries no value changes, so the first date and the entries' dates are all that counts."""
    args = tuple(binding.get(term, term) for term in pattern.terms)
    wanted = binding.get(pattern.change[1], pattern.change[1])
    dates = {start} | set(e.date for e in settled)
    return all(value_at(settled, pattern.name, args, d) == wanted for d in dates if start <= d < end)

def verdict(chronicle, window, chosen, binding, settled, horizon):
    """`met`, `lost` or `waiting`; None where an anchor or a variable of the window is open. The
    window has the dates from its start to before its end, and is settled where the end is at most
    the horizon. Settled entries alone are counted, those bound to events among them."""
    dates = {event.point: entry.date for event, entry in zip(chronicle.events, chosen) if entry}
    if not {window.start[0], window.end[0]} <= set(dates):
        return None
    if any(term.startswith("?") and term not in binding for term in terms_of(window.pattern)):
        return None
    start, end = (dates[point] + offset for point, offset in (window.start, window.end))
    equal = [entry for entry in settled if grown(binding, window.pattern, entry) is not None]
    count = sum(start <= entry.date < end for entry in equal)
    if window.kind == "hold":
        lost = not holds(settled, window.pattern, binding, start, min(end, horizon))
    else:
        lost = window.most is not None and count > window.most or end <= horizon and count < window.least
    return "lost" if lost else "met" if end <= horizon else "waiting"

# ---- Recognitions and instances
def choices(chronicle, pool, settled, horizon, none):
    """All lists that give each event an entry of the pool, or also none, with their bindings and
    the set of their windows' verdicts, made when asked for. An entry that does not equal an
    event's pattern taken alone can be left out for that event."""
    places = [none + [entry for entry in pool if grown({}, event.pattern, entry) is not None]
              for event in chronicle.events]
    for chosen in itertools.product(*places):
        binding = binding_of(chronicle, chosen)
        if binding is not None:
            yield chosen, binding, lambda: {verdict(chronicle, window, chosen, binding, settled, horizon)
                                            for window in chronicle.windows}

def recognised(chronicle, pool, settled, horizon):
    """All events have an entry of the pool, the bounds are met, and so is every window."""
    return {chosen: binding for chosen, binding, verdicts in choices(chronicle, pool, settled, horizon, [])
            if meets_bounds(chronicle, chosen) and verdicts() <= {"met"}}

def live(chronicle, focus, pool, settled, horizon, done):
    """How many partial assignments are alive. An event is bound only if all events of lower levels
    are. Dates exist that put each unbound event of the least level that has one at or after the
    horizon. No window is lost, and the assignment is no recognised one. Without focusing, and in
    a prompt chronicle, all levels are 0."""
    levels = [event.level if focus and not chronicle.prompt else 0 for event in chronicle.events]
    count = 0
    for chosen, _, verdicts in choices(chronicle, pool, settled, horizon, [None]):
        current = min((level for level, entry in zip(levels, chosen) if not entry), default=8)
        closed = all(level <= current for level, entry in zip(levels, chosen) if entry)
        waiting = [i for i, entry in enumerate(chosen) if not entry and levels[i] == current]
        if closed and chosen not in done and meets_bounds(chronicle, chosen, waiting, horizon):
            count += "lost" not in verdicts()
    return count

def recognition_line(chronicle, mark, chosen, binding):
    """Dates in the order of events, and variables in the order in which the patterns name them."""
    dates = [f" {event.point}={entry.date}" for event, entry in zip(chronicle.events, chosen)]
    terms = dict.fromkeys(term for event in chronicle.events for term in terms_of(event.pattern))
    return f"{chronicle.name} at {mark}" + "".join(dates + [f" {v}={binding[v]}" for v in terms if v[0] == "?"])

# ---- A run
def fault_of(models, run, size, item):
    """The first fault of a line that applies, or None."""
    if size > 4096 or item is None:
        return "long" if size > 4096 else "form"
    if run.ended:
        return "order"
    if item[0] == "clock" and item[1] < run.clock:
        return f"back {item[1]} {run.clock}"
    if item[0] == "event" and item[1] < run.horizon:
        return f"late {item[1]} {run.horizon}"
    if item[0] == "event" and item[2] in models.names:
        arity, attribute, values = models.names[item[2]]
        if len(item[3]) != arity or attribute != (item[4] is not None):
            return "arity"
        if values and item[4][1] not in values:
            return "value"
    return None

def slow_run(models, log):
    """The text of a run, its status, the chronicles recognised, and the two summary lines. At a
    mark a prompt chronicle binds all entries accepted before it, any other the settled ones,
    which are dated before the horizon. Between two marks neither list changes, so the instances
    are counted at the start and at the marks alone."""
    run = SimpleNamespace(delay=0, clock=0, horizon=0, ended=False, entries=[])
    lines, refused, told, known = [], 0, [], {}
    held = [[sum(live(c, focus, [], [], 0, {}) for c in models.chronicles)] for focus in (0, 1)]
    for number, (size, line) in enumerate(lines_of(log), 1):
        if size <= 4096 and line.strip(" \t")[:1] in ("", "#"):
            continue  # a blank line or a comment
        item = item_of(line)
        fault = fault_of(models, run, size, item)
        if fault:
            refused += 1
            lines.append(f"line {number} {fault}")
        elif item[0] == "delay":
            run.delay = item[1]  # it moves no horizon; the next clock uses it
        elif item[0] == "event":
            if item[2] in models.names:  # other names change nothing
                run.entries.append(Entry(item[1], canonical(*item[2:]), len(run.entries), *item[2:]))
        else:
            run.ended = item[0] == "end"
            run.clock = AFTER_END if run.ended else item[1]
            run.horizon = AFTER_END if run.ended else max(run.horizon, item[1] - run.delay)
            accepted = sorted(run.entries, key=lambda entry: entry[:3])
            settled = [entry for entry in accepted if entry.date < run.horizon]
            for counts in held:
                counts.append(0)
            for c in models.chronicles:
                pool = accepted if c.prompt else settled
                now = recognised(c, pool, settled, run.horizon)
                new = [chosen for chosen in now if chosen not in known.get(c.name, {})]
                for chosen in sorted(new, key=lambda chosen: [entry[:3] for entry in chosen]):
                    lines.append(recognition_line(c, item[-1], chosen, now[chosen]))
                told += [c] * len(new)
                known[c.name] = now
                for focus in (0, 1):
                    held[focus][-1] += live(c, focus, pool, settled, run.horizon, now)
    summaries = [f"summary entries {len(run.entries)} refused {refused} recognitions {len(told)} "
                 f"kept {counts[-1]} peak {max(counts)}\n" for counts in held]
    return "".join(line + "\n" for line in lines), int(refused > 0), told, summaries

def expected(models, log):
    """What each of the three runs prints, their status, and the chronicles that were recognised."""
    for chronicle in models.chronicles:
        if not meets_bounds(chronicle, [None] * len(chronicle.events)):
            return [f"model line {chronicle.closing} inconsistent\n"] * 3, 3, []
    text, status, told, summaries = slow_run(models, log)
    return [text, text + summaries[0], text + summaries[1]], status, told

# ---- Random models
def random_pattern(rng, names, terms, old):
    """A pattern of a declared name; a new value that is a symbol is one of the declared list."""
    name = rng.choice(list(names))
    arity, attribute, values = names[name]
    new = [term for term in terms if term[0] in "?*"] + (values or ["on", "off"])
    change = (rng.choice(old), rng.choice(new)) if attribute else None
    return Pattern(name, tuple(rng.choices(terms, k=arity)), change)

def random_window(rng, names, events, variables):
    """An anchor is an event's point, and a variable stands in an event too. A `hold` has no `*`."""
    attributes = {name: names[name] for name in names if names[name][1]}
    kind = rng.choice(["noevent", "occurs", "hold"])
    own = variables * 2 + ["p"]
    ends = [(rng.choice(events).point, rng.choice([0, 0, 0, 1, -1, 3, 6, -4])) for _ in range(2)]
    if kind == "hold":
        return Window(kind, 0, 0, random_pattern(rng, attributes, own, ["*"]), *ends)
    counts = [(0, 1), (0, 2), (1, 1), (1, 2), (2, 2), (1, None), (2, None)] if kind == "occurs" else [(0, 0)]
    return Window(kind, *rng.choice(counts), random_pattern(rng, names, own + ["*"], own + ["*", "on"]), *ends)

def random_chronicle(rng, number, names):
    c = SimpleNamespace(name=f"c{number}", prompt=rng.random() < 0.5, bounds=[], sets={}, differs=[])
    terms = ["?x", "?x", "?y", "p", "q", "*"]
    c.events = [Event(random_pattern(rng, names, terms, ["*", "*", "on", "off", "?x"]), f"t{i}",
                      rng.choice([0, 0, 1, 2, 7])) for i in range(rng.choice([1, 2, 2, 3, 3]))]
    c.free = ["z"] * (rng.random() < 0.15)
    points = [event.point for event in c.events] + c.free
    pairs = [pair for pair in zip(points[1:], points) if rng.random() < 0.9]
    pairs += [rng.choices(points, k=2) for _ in range(rng.choice([0, 0, 0, 1]))]
    for pair in pairs:
        low, width = rng.choice([-8, -3, 0, 0, 1, 1, 2]), rng.choice([0, 3, 6, 9, 15])
        ends = [(low, low + width)] * 7 + [(None, low + width), (low, None), (-2**40, 2**40)]
        c.bounds.append(Bound(*pair, *rng.choice(ends)))
    variables = sorted({t for event in c.events for t in terms_of(event.pattern) if t[0] == "?"})
    for variable in variables:
        if rng.random() < 0.25:
            c.sets[variable] = rng.sample(["p", "q", "r", "on", "off"], rng.randint(2, 4))
    if len(variables) == 2 and rng.random() < 0.5:
        c.differs = [tuple(rng.sample(variables, 2))]
    c.windows = [random_window(rng, names, c.events, variables) for _ in range(rng.choice([0, 0, 1, 1, 2]))]
    return c

def chronicle_lines(rng, c):
    """The statements of a chronicle: its points first, and the others in any order."""
    anchor = lambda point, offset: point + (f" {'+-'[offset < 0]} {abs(offset)}" if offset else "")
    show = lambda number, infinite: infinite if number is None else number
    points = [f"event({canonical(*e.pattern)}, {e.point})" + f" level {e.level}" * (e.level > 0) for e in c.events]
    rest = [f"{b.later} - {b.earlier} in [{show(b.low, '-inf')}, {show(b.high, 'inf')}]" for b in c.bounds]
    rest += [f"{variable} in ({', '.join(values)})" for variable, values in c.sets.items()]
    rest += [f"{one} != {other}" for one, other in c.differs]
    for w in c.windows:
        held = f"{canonical(*w.pattern[:2], None)}: {w.pattern.change[1]}" if w.kind == "hold" else ""
        counts = f"({w.least}, {show(w.most, 'inf')}), " if w.kind == "occurs" else ""
        rest.append(f"{w.kind}({counts}{held or canonical(*w.pattern)}, ({anchor(*w.start)}, {anchor(*w.end)}))")
    rng.shuffle(rest)
    return ["prompt " * c.prompt + f"chronicle {c.name} {{", *points, *(f"point {z}" for z in c.free), *rest, "}"]

def random_models(rng):
    """Models and their text."""
    names = {name: (rng.choice([0, 1, 1, 2]), name in "vw", name in "vw" and rng.choice([None, ["on", "off"]]))
             for name in "abvw"[:rng.choice([3, 3, 4])]}
    lines = [f"{'attribute' if attribute else 'message'} {name} {arity}" + " in (on, off)" * bool(values)
             for name, (arity, attribute, values) in names.items()]
    models = SimpleNamespace(names=names, chronicles=[])
    for number in range(rng.choice([1, 1, 2, 2, 3])):
        chronicle = random_chronicle(rng, number, names)
        lines += ["# a comment"] * (rng.random() < 0.1) + chronicle_lines(rng, chronicle)
        chronicle.closing = len(lines)
        models.chronicles.append(chronicle)
    return models, "".join(line + "\n" for line in lines)

# ---- Random logs
ODD_LINES = ["", "  ", "# 5 a", "clock", "5", "5 a[]", "5 a[p,]", "end now", "delay -1", "clock 1099511627776",
             "5 a:(on)", "\xe9", "5 " + "n" * 65, "5 a" + " " * 4093, "5 a" + " " * 4093 + "\r", "5 a\r",
             "5\tzz [ p , q ]:( on,off )", "5 v[p,p,p,p,p,p,p,p,p]:(on,off)", "delay", "00000000000000000005 a",
             "0000000000000000005 a", "007 zz"]

def instance(rng, pattern):
    """An event that equals the pattern, or nearly so where a variable stands twice."""
    fill = lambda term, symbols: rng.choice(symbols) if term[0] in "?*" else term
    change = pattern.change and [fill(term, ["on", "off"] * 4 + ["p"]) for term in pattern.change]
    return canonical(pattern.name, [fill(term, ["p", "p", "q"]) for term in pattern.terms], change)

def random_event(rng, models):
    """Mostly what some event or window of the models looks for, now and then anything at all."""
    if rng.random() < 0.08:
        args, change = ["p"] * rng.randint(0, 2), rng.choice([None, ("on", "off")])
        return canonical(rng.choice(["a", "b", "v", "zz"]), args, change)
    chronicle = rng.choice(models.chronicles)
    return instance(rng, rng.choice([part.pattern for part in chronicle.events * 2 + chronicle.windows * 2]))

def random_line(rng, models, now, earlier):
    chance = rng.random()
    if chance < 0.18:
        return f"clock {max(0, min(LAST_DATE, now + rng.choice([0, 0, 0, 1, 2, -1, -1, -9])))}"
    if chance < 0.26:
        return f"delay {rng.choice([0, 1, 3, 9, 20])}" if chance < 0.23 else rng.choice(ODD_LINES)
    if chance < 0.36 and earlier:  # the same once more, or with the other value, or with one slip
        line = rng.choice(earlier[-4:])
        spot = rng.randrange(len(line) + 1)
        slip = line[:spot] + rng.choice(" ,:[]()x5#") + line[spot + 1:]
        return rng.choice([line, line, line.replace(",on)", ",off)"), line.replace(",off)", ",on)"), slip])
    date = max(0, min(LAST_DATE, now + rng.choice([0, 0, 0, -1, -2, -3, -6, 1, 2])))
    return f"{date} {random_event(rng, models)}"

def random_log(rng, models):
    """Events near a clock that moves on, so that some are out of order and some are late."""
    now = rng.choice([0, 3, 20, LAST_DATE - 20] if rng.random() < 0.2 else [5, 10])
    lines = [f"delay {rng.randint(0, 8)}"] * (rng.random() < 0.8)
    holding = [w.pattern for c in models.chronicles for w in c.windows if w.kind == "hold"]
    lines += [f"{now} {instance(rng, pattern)}" for pattern in holding for _ in range(rng.randint(0, 3))]
    for _ in range(rng.randint(5, rng.choice([12, 22, 34]))):
        now += rng.choice([0, 0, 1, 1, 2, 4])
        lines.append(random_line(rng, models, now, lines))
    lines += [f"clock {min(LAST_DATE, now + 20)}"] * (rng.random() < 0.3)
    if rng.random() < 0.5:
        lines.insert(len(lines) - rng.choice([0, 0, 0, 0, 2]), "end")
    lines += ["end"] * (rng.random() < 0.1)
    ends = rng.choices(["\n", "\r\n"], [30, 1], k=len(lines) - 1) + [rng.choice(["\n", "\n", "\n", ""])]
    return "".join(itertools.chain(*zip(lines, ends)))

# ---- The comparison
def save(folder, files):
    for name, text in files.items():
        Path(folder, name).write_bytes(text.encode("latin-1"))

def differs(program, files, texts, status, label):
    """Runs the program three ways; where one way differs, keeps the case and says where."""
    folder, different = tempfile.mkdtemp(prefix=f"definitions-{label}-"), False
    save(folder, files)
    for options, text in zip(OPTIONS, texts):
        words = [program, "run", *options, *(Path(folder, name) for name in files)]
        done = subprocess.run(words, stdout=subprocess.PIPE, stderr=subprocess.DEVNULL, timeout=60)
        different |= (done.stdout, done.returncode) != (text.encode("latin-1"), status)
        name, output = "run" + "".join(options), done.stdout.decode("latin-1")
        save(folder, {name + ".rules": f"{text}status {status}\n",
                      name + ".program": f"{output}status {done.returncode}\n"})
    print(f"case {label} differs: {folder}\n" * different, end="", flush=True)
    different or shutil.rmtree(folder)
    return different

def main():
    parser = argparse.ArgumentParser(description=__doc__.splitlines()[0])
    parser.add_argument("program")
    parser.add_argument("--cases", type=int, default=200)
    parser.add_argument("--seed", type=int, default=1)
    args = parser.parse_args()
    cases = found = prompt = differing = number = 0
    while cases < args.cases:
        number += 1
        rng = random.Random(f"{args.seed} {number}")
        models, models_text = random_models(rng)
        log = random_log(rng, models)
        texts, status, told = expected(models, log)
        case = {"models": models_text, "log": log}
        differing += differs(args.program, case, texts, status, f"{args.seed}-{number}")
        cases += status != 3  # models whose bounds cannot be met are no case, but their line is compared
        found += bool(told)
        prompt += any(chronicle.prompt for chronicle in told)
    print(f"{cases} cases, {found} with recognitions, {prompt} with a prompt chronicle's, {differing} differ")
    return int(differing > 0)

if __name__ == "__main__":
    sys.exit(main())
