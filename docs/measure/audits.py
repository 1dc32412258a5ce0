#!/usr/bin/env python3
"""A slow reading of what `crs audit` answers, and random outputs that compare a built program with it.

usage: audits.py PROGRAM [--cases N] [--seed S]

Each case is a random model text and a random log. `run --cite` writes an output, whose lines without
their numbers must be those of the slow reading of a run, and whose audit must find no fault. Then
outputs are audited in which a number, a word, a blank or a line is another one, or which claim entries
drawn at random at marks drawn at random; what the program prints and its exit status are compared with
what the rules below give. They go over all accepted entries for each claim and keep nothing but the
claims before it. The reading of models, logs, patterns, dates and windows is that of definitions.py.
"""
import argparse, random, re, shutil, subprocess, sys, tempfile
sys.dont_write_bytecode = True  # definitions.py leaves nothing beside it
from collections import Counter
from pathlib import Path
from types import SimpleNamespace
import definitions as rules

# ---- What is known of a log
def marks_of(models, log):
    """The accepted entries by arrival, and for the number of each accepted mark the horizon behind its
    last one and how many entries were accepted before that."""
    run = SimpleNamespace(delay=0, clock=0, horizon=0, ended=False)
    entries, marks = [], {}
    for size, line in rules.lines_of(log):
        if size <= 4096 and line.strip(" \t")[:1] in ("", "#"):
            continue
        item = rules.item_of(line)
        if rules.fault_of(models, run, size, item):
            continue
        if item[0] == "delay":
            run.delay = item[1]
        elif item[0] == "event":
            if item[2] in models.names:
                entries.append(rules.Entry(item[1], rules.canonical(*item[2:]), len(entries), *item[2:]))
        else:
            run.ended = item[0] == "end"
            run.clock = rules.AFTER_END if run.ended else item[1]
            run.horizon = rules.AFTER_END if run.ended else max(run.horizon, item[1] - run.delay)
            marks["end" if run.ended else item[1]] = run.horizon, len(entries)
    return entries, marks

def with_twin(rng, models, text):
    """The models with one chronicle once more, under another name and prompt or not, and their text."""
    twin = SimpleNamespace(**vars(rng.choice(models.chronicles)))
    twin.name, twin.prompt = "twin", rng.random() < 0.5
    models.chronicles.append(twin)
    return text + "".join(line + "\n" for line in rules.chronicle_lines(rng, twin))

# ---- Claims
def number_below(word, limit):
    """The number of 1 to 19 digits, where it is below the limit, or None."""
    return int(word) if re.fullmatch("[0-9]{1,19}", word) and int(word) < limit else None

def claim_of(size, line):
    """None where a line is no claim, "form" where it has not the form of one, or else the name, the
    mark and the numbers that it claims. Words are parted at each single space or tab."""
    words = re.split("[ \t]", line)
    if words[1:2] != ["at"]:
        return None
    if size > 4096 or "\t" in line or "" in words or not re.fullmatch(rules.WORD, words[0]):
        return "form"
    mark = words[2] if words[2:3] == ["end"] else number_below("".join(words[2:3]), 2**40)
    further = words[3:]
    if mark is None or "cites" not in further:
        return "form"
    last = len(further) - 1 - further[::-1].index("cites")
    numbers = [number_below(word, 2**32) for word in further[last + 1:]]
    return "form" if not numbers or None in numbers else (words[0], mark, numbers)

def fault_of(models, entries, marks, earlier, line, claim):
    """The first word that applies to a claim, or None."""
    name, mark, numbers = claim
    chronicle = next((c for c in models.chronicles if c.name == name), None)
    if not chronicle:
        return "chronicle"
    if mark not in marks:
        return "mark"
    horizon, accepted = marks[mark]
    arrived = entries[:accepted]
    settled = sorted((e for e in arrived if e.date < horizon), key=lambda e: e[:3])
    pool = {e.arrival: e for e in (arrived if chronicle.prompt else settled)}
    if len(numbers) != len(chronicle.events) or len(set(numbers)) != len(numbers) or not set(numbers) <= set(pool):
        return "entry"
    chosen = tuple(pool[n] for n in numbers)
    binding = rules.binding_of(chronicle, chosen)
    if binding is None:
        return "fit"
    if not rules.meets_bounds(chronicle, chosen):
        return "bounds"
    if any(rules.verdict(chronicle, w, chosen, binding, settled, horizon) != "met" for w in chronicle.windows):
        return "window"
    if line != cited(chronicle, mark, chosen, binding):
        return "text"
    return "twice" if (name, numbers) in earlier else None

def cited(chronicle, mark, chosen, binding):
    """The line of a recognition with the numbers of its entries."""
    return rules.recognition_line(chronicle, mark, chosen, binding) + " cites" + "".join(f" {e.arrival}" for e in chosen)

def slow_audit(models, entries, marks, output):
    """What the command prints, and its exit status."""
    earlier = []
    for number, (size, line) in enumerate(rules.lines_of(output), 1):
        claim = claim_of(size, line)
        if claim is None:
            continue
        fault = claim if claim == "form" else fault_of(models, entries, marks, earlier, line, claim)
        if fault:
            return f"audit line {number} {fault}\n", 3
        earlier.append((claim[0], claim[2]))
    return f"audit ok {len(earlier)}\n", 0

# ---- Other outputs
def other_number(rng, text):
    """One number of the text is another one near it, or a far one, or is written in another way."""
    spots = list(re.finditer("[0-9]+", text))
    if not spots:
        return text
    spot = rng.choice(spots)
    n = int(spot[0])
    other = rng.choice([str(n + 1), str(max(0, n - 1)), "0", "00" + spot[0], str(n + 2**32), str(2**40), "end", "0" * 19 + spot[0]])
    return text[:spot.start()] + other + text[spot.end():]

def other_word(rng, text):
    """One word is left out, stands twice, is another of the text's words, or has another blank."""
    words = re.split("( |\n)", text)
    place = rng.randrange(0, len(words), 2)
    all_words = [w for w in words[::2] if w] + ["cites", "at", "c0", "end", "\xe9", "x" * 65]
    change = rng.choice(["out", "twice", "other", "other", "blank"])
    if change == "out":
        words[place:place + 2] = []
    elif change == "twice":
        words[place:place] = [words[place], " "]
    elif change == "other":
        words[place] = rng.choice(all_words)
    elif place + 1 < len(words):
        words[place + 1] = rng.choice(["\t", "  ", "\r\n", " ", "\n"])
    return "".join(words)

def other_line(rng, text):
    """One line is left out, stands twice, stands elsewhere, or is longer than a line may be."""
    lines = text.splitlines(keepends=True)
    if not lines:
        return rng.choice(["c0 at 1 cites 0", "x at", "c0 at end cites 0 1 2", "\n"])
    line = lines.pop(rng.randrange(len(lines)))
    change = rng.choice(["out", "twice", "elsewhere", "long"])
    for _ in range({"out": 0, "twice": 2}.get(change, 1)):
        long = line.rstrip("\n") + " 0" * 2100 + "\n"
        lines.insert(rng.randint(0, len(lines)), long if change == "long" else line)
    return "".join(lines)

def other_claims(rng, models, entries, marks):
    """Claims of entries and marks that are drawn, with the text that they have if they fit."""
    lines = []
    for _ in range(rng.choice([1, 1, 2, 3])):
        chronicle = rng.choice(models.chronicles)
        mark = rng.choice(list(marks) or [1])
        known = entries[:marks[mark][1]] if mark in marks and rng.random() < 0.9 else entries
        fitting = [[e for e in known if rules.grown({}, event.pattern, e) is not None] or known for event in chronicle.events]
        if not all(fitting):
            continue
        chosen = tuple(rng.choice(some) for some in fitting)
        binding = rules.binding_of(chronicle, chosen)
        if binding is None:
            lines.append(f"{chronicle.name} at {mark} cites " + " ".join(str(e.arrival) for e in chosen))
        else:
            lines.append(cited(chronicle, mark, chosen, binding))
    return "".join(line + "\n" for line in lines)

# ---- The comparison
class Case:
    """A models text and a log in a folder of their own, and how often the program differed on them."""
    def __init__(self, program, files, label):
        self.program, self.files, self.label = program, files, label
        self.folder, self.different = tempfile.mkdtemp(prefix=f"audits-{label}-"), 0
        rules.save(self.folder, files)

    def run(self, *words):
        done = subprocess.run([self.program, *words], cwd=self.folder, stdout=subprocess.PIPE, stderr=subprocess.DEVNULL, timeout=60)
        return done.stdout.decode("latin-1"), done.returncode

    def compare(self, name, output, wanted):
        """Audits an output; where the answer is another one than wanted, all of it is kept."""
        rules.save(self.folder, {"output": output})
        told = self.run("audit", "models", "log", "output")
        if told != wanted:
            self.different += 1
            rules.save(self.folder, {f"output.{name}": output, f"{name}.rules": f"{wanted}\n", f"{name}.program": f"{told}\n"})

    def end(self):
        if self.different:
            print(f"case {self.label} differs: {self.folder}", flush=True)
        else:
            shutil.rmtree(self.folder)
        return self.different

def audit_case(rng, program, models, files, label, words, changes):
    """Compares the audits of a cited output, of changed ones and of drawn claims."""
    case = Case(program, files, label)
    text, status, told, _ = rules.slow_run(models, files["log"])
    entries, marks = marks_of(models, files["log"])
    output, ended = case.run("run", "--cite", "models", "log")
    plain = re.sub("(?m) cites( [0-9]+)+$", "", output)
    if (plain, ended) != (text, status) or len(told) != len(re.findall("(?m) cites( [0-9]+)+$", output)):
        case.different += 1
        rules.save(case.folder, {"run.rules": text, "run.program": output})
    case.compare("whole", output, (f"audit ok {len(told)}\n", 0))
    for number in range(changes):
        change = rng.choice(["number", "number", "word", "line", "claims", "claims"])
        if change == "claims":
            changed = other_claims(rng, models, entries, marks) + output * (rng.random() < 0.3)
        else:
            changed = {"number": other_number, "word": other_word, "line": other_line}[change](rng, output)
        wanted = slow_audit(models, entries, marks, changed)
        words[wanted[0].split()[-1] if wanted[1] else "ok"] += 1
        case.compare(f"{number}", changed, wanted)
    return len(told), case.end()

def main():
    parser = argparse.ArgumentParser(description=__doc__.splitlines()[0])
    parser.add_argument("program", type=lambda path: str(Path(path).resolve()))
    parser.add_argument("--cases", type=int, default=200)
    parser.add_argument("--changes", type=int, default=20)
    parser.add_argument("--seed", type=int, default=1)
    args = parser.parse_args()
    cases = claims = differing = number = 0
    words = Counter()
    while cases < args.cases:
        number += 1
        rng = random.Random(f"audits {args.seed} {number}")
        models, models_text = rules.random_models(rng)
        if rng.random() < 0.3:
            models_text = with_twin(rng, models, models_text)
        log = rules.random_log(rng, models)
        if not all(rules.meets_bounds(c, [None] * len(c.events)) for c in models.chronicles):
            continue  # such models are refused
        found, different = audit_case(rng, args.program, models, {"models": models_text, "log": log},
                                      f"{args.seed}-{number}", words, args.changes)
        cases, claims, differing = cases + 1, claims + found, differing + different
    print(f"{cases} cases, {claims} recognitions, {sum(words.values())} changed outputs "
          f"({', '.join(f'{word} {count}' for word, count in sorted(words.items()))}), {differing} differ")
    return int(differing > 0)

if __name__ == "__main__":
    sys.exit(main())
