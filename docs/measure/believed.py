#!/usr/bin/env python3
"""Compares the list of what must be believed with what the headline's contract reaches.

usage: believed.py [--write | --trace NAME]

The contract of `run_program` and `run_with` in crates/crs_top/src/run.rt names definitions, and these name others, in
the `specs/` of the crates. A name is followed to the module from which its file imports it; the names of fields, and
what stands in quotes or behind `--`, count for nothing. What is reached must be what docs/believed.txt lists: each
definition by its file, with the count of its lines, comments and empty lines left out, and a line that says what it
is. Where the source has a comment above it, that line is the comment, or its first sentence; else it is written by
hand, or names a definition of which it is a part. docs/DEFINITIONS.md must link each file, and no other, and tell the
sums.

--write writes the list anew, and keeps what was written by hand; --trace NAME says what leads to a name.
The status is 1 where list or page are others.
"""
import difflib
import re
import sys
from pathlib import Path
from typing import NamedTuple

ROOT = Path(__file__).resolve().parent.parent.parent
PAGE = ROOT / "docs/DEFINITIONS.md"
LIST = ROOT / "docs/believed.txt"
TOP = ROOT / "crates/crs_top/src/run.rt"
HEAD = re.compile(r"^(\s*)(?:abbrev |unfoldable )?(?=pub |record |data )(?:pub )?(record |data )?([^\s:(){}]+)(?=[\s:({])")
USE = re.compile(r"^\s*(?:ghost )?use Rattle\.([\w.]+?)(?:\.\{([^}]*)\}| as (\w+))?;?$")
TOKEN = re.compile(r"[^\s(){}\[\],;λ·]+")


class Definition(NamedTuple):
    module: str         # as crs_model.specs.Open
    name: str
    lines: list         # without comments and empty lines
    remark: str         # the comment above it


class Module(NamedTuple):
    definitions: dict   # by name; a constructor's is that of its type
    names: dict         # imported names: (module, name)
    others: dict        # modules by the names that they have here


def path_of(module):
    crate, _, rest = module.partition(".specs.")
    return ROOT / "crates" / crate / "specs" / (rest.replace(".", "/") + ".antt")


def imports_of(text):
    names, others = {}, {}
    for line in re.sub(r",\n\s*", ", ", text).splitlines():
        use = USE.match(line)
        if use and use[3]:
            others[use[3]] = use[1]
        elif use:
            for one in (use[2] or "").split(","):
                name, _, here = one.strip().partition(" as ")
                names[here or name] = (use[1], name)
    return names, others


def head_of(line, inside):
    """The head of a definition; what stands deeper than the head of a record is a field."""
    head = HEAD.match(line)
    return head if head and (inside is None or len(head[1]) <= inside) else None


def read_module(module):
    text = path_of(module).read_text()
    definitions, now, inside, remark = {}, None, None, []
    for line in text.splitlines():
        bare = line.strip()
        if bare.startswith("--"):
            if now is None or inside is None or len(line) - len(line.lstrip()) <= inside:
                remark.append(bare.lstrip("- "))
        elif not bare:
            remark = [] if now is not None else remark
        elif bare.startswith(("use ", "module ", "pub mod ", "mod ", "infix", "ghost ")):
            now, inside, remark = None, None, []
        else:
            head = head_of(line, inside)
            if head:
                now = Definition(module, head[3], [], " ".join(remark))
                definitions[head[3]] = now
                inside = len(head[1]) if head[2] else None
                remark = []
            if now is not None:
                now.lines.append(re.sub(r"\s--\s.*", "", line))
                made = re.match(r"\s+([A-Z]\w*) :", line)
                if made and inside is not None and not head:
                    definitions[made[1]] = now
    names, others = imports_of(text)
    return Module(definitions, names, others)


def tokens_of(text, others):
    """The names in a text, without those of fields and of what a binder introduces beside a colon."""
    text = re.sub(r'"(?:[^"\\]|\\.)*"', " ", text)
    text = re.sub(r"(?m)^(\s+)(?:pub )?\w+ :(?= )", r"\1", text)
    qualified = {(a, b) for a, b in re.findall(r"(\w+)\.(\w+)", text) if a in others}
    text = re.sub(r"\.\w+", " ", text)
    text = re.sub(r"\b\w+ =(?=\s)", " ", text)
    return set(TOKEN.findall(text)), qualified


def contract():
    """The contracts of the two calls, and what their file imports."""
    text = TOP.read_text()
    found = re.findall(r"(?ms)^pub fn run_(?:program|with).*?^\{$", text)
    clauses = "\n".join(re.sub(r"(?s).*?\) -> Status", "", one) for one in found)
    return clauses, imports_of(text)


def reach():
    """What the contract reaches, each definition with what named it first."""
    modules, reached = {}, {}
    clauses, (names, others) = contract()
    todo = [(clauses, Module({}, names, others), "the contract")]

    def meet(module, name, by):
        if not module.startswith("crs") or ".specs." not in module or ".declared." in module:
            return      # the library's, or a type of the code
        if module not in modules:
            modules[module] = read_module(module)
        one = modules[module].definitions.get(name)
        if one is None:
            sys.exit(f"believed: {module} has no {name}, which {by} names")
        if (module, one.name) not in reached:
            reached[module, one.name] = (one, by)
            todo.append(("\n".join(one.lines), modules[module], f"{module}.{one.name}"))

    while todo:
        text, where, by = todo.pop(0)
        tokens, qualified = tokens_of(text, where.others)
        own = by.rsplit(".", 1)[0]
        for token in sorted(tokens):
            if token in where.definitions:
                meet(own, token, by)
            elif token in where.names:
                meet(*where.names[token], by)
            else:
                for name in where.names:
                    if "◌" in name and name.strip("◌") == token:
                        meet(*where.names[name], by)
        for alias, name in sorted(qualified):
            meet(where.others[alias], name, by)
    return reached


def place_of(module):
    return str(path_of(module).relative_to(ROOT))


def crates_in_order():
    return [line.partition(":")[0] for line in (ROOT / "crates.txt").read_text().splitlines()]


def short(remark):
    """A comment of up to 200 bytes, and of a longer one the first sentence."""
    return remark if len(remark) <= 200 else re.split(r"(?<=[^.])\.\s", remark, maxsplit=1)[0]


def by_hand(text):
    """The lines that the list has, by file and name."""
    lines, place = {}, ""
    for line in text.splitlines():
        if found := re.match(r"(crates/\S+\.antt):", line):
            place = found[1]
        elif found := re.match(r"  (\S+) \(\d+\): (.*)", line):
            lines[place, found[1]] = found[2]
    return lines


def told_of(one, by, old):
    """What the list says of a definition."""
    if one.remark:
        return short(one.remark)
    hand = old.get((place_of(one.module), one.name), "")
    module, _, name = by.rpartition(".")
    part = "named by the contract" if not module else f"a part of {name}"
    return part if not hand or hand.startswith(("a part of ", "named by ")) else hand


def sums_of(definitions):
    return f"{len(definitions)} definitions, {sum(len(one.lines) for one in definitions):,} lines"


def listing(reached, old):
    order = crates_in_order()
    modules = {}
    for one, by in reached.values():
        modules.setdefault(one.module, []).append((one, by))
    everything = [one for one, _ in reached.values()]
    out = [f"What must be believed: {sums_of(everything)} in {len(modules)} files, comments left out.",
           "docs/DEFINITIONS.md tells how to read it. docs/measure/believed.py --write writes it."]
    for module in sorted(modules, key=lambda m: (order.index(m.partition(".")[0]), m)):
        there = list(read_module(module).definitions)
        mine = sorted(modules[module], key=lambda pair: there.index(pair[0].name))
        out += ["", f"{place_of(module)}: {sums_of([one for one, _ in mine])}"]
        out += [f"  {one.name} ({len(one.lines)}): {told_of(one, by, old)}" for one, by in mine]
    return "\n".join(out) + "\n"


def faults_of_page(reached):
    page = PAGE.read_text()
    linked = set(re.findall(r"\(\.\./(crates/[^)]*/specs/[^)]*\.antt)\)", page.partition("# What must be believed")[2]
                            .partition("\n# ")[0]))
    wanted = {place_of(module) for module, _ in reached}
    sums = sums_of([one for one, _ in reached.values()])
    return ([f"it doesn't link {place}" for place in sorted(wanted - linked)]
            + [f"it links {place}, which isn't reached" for place in sorted(linked - wanted)]
            + ([] if sums in page else [f"it doesn't say: {sums}"]))


def main():
    reached = reach()
    if sys.argv[1:2] == ["--trace"]:
        for (module, name), (_, by) in reached.items():
            if name == sys.argv[2]:
                print(f"{module}.{name} is named by {by}")
        return
    old = LIST.read_text() if LIST.exists() else ""
    new = listing(reached, by_hand(old))
    if sys.argv[1:] == ["--write"]:
        LIST.write_text(new)
        old = new
    lines = [line for line in difflib.unified_diff(old.splitlines(), new.splitlines(), lineterm="", n=0) if line[:1] in "+-"]
    for line in lines[2:]:
        print(f"docs/believed.txt: {line}")
    faults = faults_of_page(reached)
    for fault in faults:
        print(f"docs/DEFINITIONS.md: {fault}")
    print(f"believed: {sums_of([one for one, _ in reached.values()])}")
    sys.exit(1 if lines or faults else 0)


if __name__ == "__main__":
    main()
