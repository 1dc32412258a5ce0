#!/usr/bin/env python3
"""Runs the blocks of Markdown files, and compares what they show with what comes.

usage: blocks.py PROGRAM FILE..

All blocks of all files are taken in order, in one new folder where `crs` is PROGRAM and where the folders of the
repository stand by their names. What a block leaves there, the blocks behind it find. A block is, by the first of
these rules that applies,

- what the comment in the line above it says, which nobody sees who reads the page:
      <!-- prints: COMMAND -->     what COMMAND prints
      <!-- file: NAME -->          the file NAME
      <!-- not run: WHY -->        passed over
- a session, where it begins with `$ `: each such line is a command, and the lines up to the next one are what it
  prints. The commands of one block are run by one shell;
- the file NAME, where the line of prose above it ends with: in a file `NAME`:
- what `crs run OPTIONS` or `crs model OPTIONS` prints of the files `models` and `log`, where the prose above it ends
  with these words and: prints
- the file `models`, where it begins with a declaration or a chronicle. `crs model` must accept it; where the prose
  behind it begins with: gives `model line N WORD`, it must refuse it so;
- the file `log`, where the prose above it ends with: the log

Nothing else may be a block. What is printed is standard output and standard error, as a terminal shows them.
The status is 1 where a block shows something else than what comes, or is none of these, and 0 otherwise.
"""
import argparse, difflib, os, re, signal, subprocess, sys, tempfile
from pathlib import Path
from typing import NamedTuple

ROOT = Path(__file__).resolve().parent.parent.parent
BEHIND_EACH = "\037"    # what the shell prints behind each command's output: no document has it
LONGEST = 60            # seconds that the commands of one block may take

class Block(NamedTuple):
    line: int           # the number of its first line
    comment: str        # what the comment above it says, or nothing
    before: str         # the line of prose above it, or nothing
    text: str
    behind: str         # the line of prose behind it

class Shown(NamedTuple):
    command: str
    output: str

class NoRule(Exception):
    pass

def blocks_of(text):
    lines = text.splitlines()
    fences = [number for number, line in enumerate(lines) if line.startswith("```")]
    end = 0
    for opening, closing in zip(fences[::2], fences[1::2]):
        above = [line for line in lines[end:opening] if line.strip()]
        end = closing + 1
        comment = above.pop() if above and above[-1].startswith("<!--") else ""
        yield Block(opening + 2, comment.removeprefix("<!--").removesuffix("-->").strip(), above[-1] if above else "",
                    "".join(line + "\n" for line in lines[opening + 1:closing]),
                    next((line for line in lines[end:] if line.strip()), ""))

def session(text):
    """The commands of a block that begins with `$ `, each with its output."""
    return [Shown(*part.split("\n", 1)) for part in re.split(r"^\$ ", text, flags=re.M)[1:]]

def by_comment(block, folder):
    kind, _, rest = block.comment.partition(": ")
    if kind == "prints":
        return [Shown(rest, block.text)]
    if kind == "file":
        (folder / rest).write_text(block.text)
    elif kind != "not run":
        raise NoRule(f"no such comment: {block.comment}")
    return []

def models(block, folder):
    """No line of models that are accepted begins as a refusal does."""
    (folder / "models").write_text(block.text)
    refused = re.match(r"gives `(model line [^`]+)`", block.behind)
    return [Shown("crs model models 2>/dev/null | grep '^model line '", refused[1] + "\n" if refused else "")]

def shown_by(block, folder):
    """The commands that a block shows, each with what it should print; a file is written."""
    if block.comment:
        return by_comment(block, folder)
    if block.text.startswith("$ "):
        return session(block.text)
    if named := re.search(r"in a file `([^`]+)`:$", block.before):
        (folder / named[1]).write_text(block.text)
        return []
    if told := re.search(r"`(crs (\w+)( --\w+)*)` prints:?$", block.before):
        return [Shown(told[1] + (" models log 2>/dev/null" if told[2] == "run" else " models"), block.text)]
    if re.match(r"(message|attribute|derived|chronicle|prompt chronicle) ", block.text):
        return models(block, folder)
    if re.search(r"\bthe log:?$", block.before):
        (folder / "log").write_text(block.text)
        return []
    raise NoRule("no rule says what this block is")

def run(commands, folder):
    """What each of the commands prints in one shell. What it leaves running is ended."""
    script = "".join(f"{command}\nprintf '\\{ord(BEHIND_EACH):03o}'\n" for command in commands)
    environment = os.environ | {"PATH": f"{folder / 'crates/crs/out'}:{os.environ['PATH']}"}
    with tempfile.TemporaryFile() as output:
        shell = subprocess.Popen(["bash", "-c", script], cwd=folder, env=environment,
                                 stdin=subprocess.DEVNULL, stdout=output, stderr=subprocess.STDOUT, start_new_session=True)
        try:
            shell.wait(LONGEST)
        except subprocess.TimeoutExpired:
            pass  # what is missing then shows as a difference
        try:
            os.killpg(shell.pid, signal.SIGKILL)
        except ProcessLookupError:
            pass
        shell.wait()
        output.seek(0)
        printed = output.read().decode(errors="replace").split(BEHIND_EACH)
    return (printed + [""] * len(commands))[:len(commands)]

def differences(block, folder):
    """A text for each command that prints something else than shown, and how many commands there were."""
    shown = shown_by(block, folder)
    printed = run([one.command for one in shown], folder) if shown else []
    texts = []
    for one, output in zip(shown, printed):
        if output != one.output:
            both = one.output.splitlines(), output.splitlines()
            lines = difflib.unified_diff(*both, "as shown", "as printed", lineterm="")
            texts.append("\n".join([f"$ {one.command}", *lines]))
    return texts, len(shown)

def make_folder(folder, program):
    """The repository by names that lead to it, but for its crates, of which the program alone is there."""
    for entry in ROOT.iterdir():
        if not entry.name.startswith(".") and entry.name != "crates":
            (folder / entry.name).symlink_to(entry)
    built = folder / "crates/crs/out/crs"
    built.parent.mkdir(parents=True)
    built.symlink_to(program)

def try_file(name, folder):
    """Prints the differences of one file and a line for it, and says whether there were none."""
    commands = faults = passed_over = 0
    for block in blocks_of(Path(name).read_text()):
        passed_over += block.comment.startswith("not run: ")
        try:
            texts, count = differences(block, folder)
        except NoRule as why:
            texts, count = [str(why)], 0
        commands += count
        faults += len(texts)
        for text in texts:
            print(f"{name}:{block.line}: {text}")
    print(f"{name}: {commands} commands run, {passed_over} blocks not run, {faults} differences")
    return faults == 0

def main():
    parser = argparse.ArgumentParser(description=__doc__.splitlines()[0])
    parser.add_argument("program", metavar="PROGRAM", type=Path)
    parser.add_argument("files", metavar="FILE", nargs="+")
    words = parser.parse_args()
    if not os.access(words.program, os.X_OK):
        sys.exit(f"blocks: no program at {words.program}")
    with tempfile.TemporaryDirectory() as name:
        make_folder(Path(name), words.program.resolve())
        same = [try_file(file, Path(name)) for file in words.files]
    sys.exit(0 if all(same) else 1)

if __name__ == "__main__":
    main()
