#!/usr/bin/env python3
"""Compares the README of each crate with its source.

usage: readmes.py [--list CRATE]

A library crate's README must name, between backquotes:
- each public function that `lib.rt` exports, and each public method of an exported type or trait, by a line that has the
  type's name too;
- in a table whose last head is Clauses, only such calls, and exported types, in the first column, and in the last one
  only clauses of the calls that stand in the first;
- in the line that begins with `Used by`, exactly the crates that import it by `crates.txt`, those of tests left out.
A crate of tests, and the program's, must have a README.

With --list the public calls of a crate are printed, each with its clauses. The status is 1 where something is wrong.
"""
import re
import sys
from pathlib import Path
from typing import NamedTuple

ROOT = Path(__file__).resolve().parent.parent.parent
ITEM = re.compile(r"^(\s*)(pub(?:\(\w+\))? )?(?:const )?fn (\w+)|^()(impl|pub trait)\b(.*)")


class Call(NamedTuple):
    owner: str          # the type or trait, or nothing
    name: str
    clauses: tuple      # the names of its clauses; one without a name is an empty text
    module: str         # the file, by its path from src/

    def __str__(self):
        return f"{self.owner}::{self.name}" if self.owner else self.name


def exported(crate):
    """The names that lib.rt exports, and the modules of which all is exported."""
    text = re.sub(r"//.*", "", (crate / "src/lib.rt").read_text())
    names = set()
    for one in re.findall(r"^pub use ([^;]+);", text, re.M):
        names.update(re.findall(r"\w+", one.split("{", 1)[1] if "{" in one else one.rsplit("::", 1)[-1]))
    return names, set(re.findall(r"^pub mod (\w+);", text, re.M))


def type_of(head):
    """The type of an `impl` line, or nothing where a trait is implemented; the name of a trait."""
    head = re.sub(r"^<[^>]*>", "", head.strip())
    named = re.match(r"\s*(?:\w+::)*(\w+)", head)
    return named[1] if named and " for " not in head else ""


def calls_in(path, module):
    """All that is public in a file. A contract stands between the head of a function and its body."""
    owner, trait, depth, found = "", False, 0, []
    for line in path.read_text().splitlines():
        item = ITEM.match(line)
        if item and item[5]:
            owner, trait = type_of(item[6]), item[5] == "pub trait"
        elif item:
            if not item[1]:
                owner, trait = "", False
            public, depth = item[2] == "pub " or trait, len(item[1])
            found.append(Call(owner if item[1] else "", item[3], [], module) if public and (owner or not item[1]) else None)
        elif clause := re.match(r"(\s+)ensures\*? (?:(\w+) )?\{", line):
            if found and found[-1] and len(clause[1]) == depth + 4:
                found[-1].clauses.append(clause[2] or "")
    return [one._replace(clauses=tuple(one.clauses)) for one in found if one]


def public_calls(crate):
    names, modules = exported(crate)
    calls = []
    for path in sorted((crate / "src").rglob("*.rt")):
        module = str(path.relative_to(crate / "src").with_suffix(""))
        for call in calls_in(path, module):
            if (call.owner or call.name) in names or module.split("/")[0] in modules or module == "lib":
                calls.append(call)
    return calls


def users_of():
    users = {}
    for line in (ROOT / "crates.txt").read_text().splitlines():
        name, _, below = line.partition(":")
        for one in below.split():
            if not name.endswith("_tests"):
                users.setdefault(one, set()).add(name)
    return users


def spans_in(text):
    return re.findall(r"`([^`]+)`", text)


def words_in(text):
    return {word for span in spans_in(text) for word in re.findall(r"\w+", span)}


def rows_of(lines):
    """The first and the last cell of each row of the tables of clauses, with the row's number."""
    head = ""
    for number, line in enumerate(lines, 1):
        cells = [cell.strip() for cell in line.strip().strip("|").split("|")] if line.startswith("|") else []
        if not cells:
            head = ""
        elif not head:
            head = cells[-1]
        elif head == "Clauses" and not cells[0].startswith("-"):
            yield number, cells[0], cells[-1]


def faults_of(crate, users):
    readme = crate / "README.md"
    if not readme.exists():
        return ["there is no README.md"]
    if crate.name.endswith("_tests") or not (crate / "src/lib.rt").exists():
        return []
    lines = readme.read_text().splitlines()
    words = [words_in(line) for line in lines]
    calls = public_calls(crate)
    names, _ = exported(crate)
    faults = [f"{call} isn't named" for call in calls
              if not any(call.name in line and (not call.owner or call.owner in line) for line in words)]
    for number, first, last in rows_of(lines):
        known = set()
        for span in spans_in(first):
            owner, _, name = span.rpartition("::")
            meant = [call for call in calls if call.name == name and owner in (call.owner, call.module.rsplit("/", 1)[-1], "")]
            known.update(clause for call in meant for clause in call.clauses)
            if not meant and span not in names:
                faults.append(f"line {number}: {span} isn't public")
        faults += [f"line {number}: no call there has a clause {span}" for span in spans_in(last) if span not in known]
    told = {word for line in lines if line.startswith("Used by") for word in re.findall(r"\bcrs\w*", line)}
    wanted = users.get(crate.name, set())
    if told != wanted:
        faults.append(f"it is used by {' '.join(sorted(wanted)) or 'none'}")
    return faults


def main():
    if len(sys.argv) == 3 and sys.argv[1] == "--list":
        for call in public_calls(ROOT / "crates" / sys.argv[2]):
            print(f"{call}: {', '.join(one or '(alone)' for one in call.clauses)}")
        return
    users = users_of()
    count = faults = 0
    for crate in sorted(one for one in (ROOT / "crates").iterdir() if one.is_dir()):
        count += 1
        for fault in faults_of(crate, users):
            faults += 1
            print(f"crates/{crate.name}/README.md: {fault}")
    print(f"readmes: {count} crates, {faults} faults")
    sys.exit(1 if faults else 0)


if __name__ == "__main__":
    main()
