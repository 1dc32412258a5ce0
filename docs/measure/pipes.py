#!/usr/bin/env python3
"""Tries `crs feeds` on named pipes, and fails where it reads, waits or prints otherwise than stated.

usage: pipes.py [PROGRAM]        crates/crs/out/crs where none is given

1. Eight pipes, each written by a thread of its own, a few bytes at a time: the lines are those of the
   same bytes in files.
2. A feed whose pipe is silent is waited for: the others' lines aren't told before it has given its own,
   and are told as soon as it has, while all pipes are still open. So a controller sends clocks.
3. A feed that ends at once is passed over in each round, and what it held back is told.
4. The same file named twice is two feeds, and each event comes from both.

The status is 0 where all hold, 2 where there is no program, and 1 else.
"""

import os
import random
import select
import subprocess
import sys
import tempfile
import threading

PATIENCE = 20       # seconds after which a line is taken to be missing
SILENCE = 1         # seconds in which no line may come
MODELS = b"""message a 1
message b 1
chronicle c {
  event(a[?u], t1)
  event(b[?u], t2)
  t2 - t1 in [1, 9]
}
"""


def check(holds, what):
    if not holds:
        sys.exit("pipes.py: " + what)


def log_of(feed, lines):
    """Events of one feed with a clock behind each fourth, and `end`."""
    choose = random.Random(feed)
    date, rows = 0, []
    for number in range(lines):
        date += choose.randrange(3)
        rows.append("%d %s[u%d]" % (date, choose.choice("ab"), choose.randrange(40)))
        if number % 4 == 3:
            rows.append("clock %d" % date)
    return ("\n".join(rows) + "\nend\n").encode()


def write_slowly(name, data, seed):
    choose = random.Random(seed)
    with open(name, "wb", buffering=0) as pipe:
        while data:
            size = choose.randrange(1, 200)
            pipe.write(data[:size])
            data = data[size:]


def start(program, models, names):
    return subprocess.Popen([program, "feeds", models, *names], stdout=subprocess.PIPE, stderr=subprocess.DEVNULL)


def told(run, seconds):
    """What the run prints within these seconds: none where it is silent."""
    ready, _, _ = select.select([run.stdout], [], [], seconds)
    return os.read(run.stdout.fileno(), 65536) if ready else b""


def try_eight(program, folder, models):
    logs = [log_of(feed, 400) for feed in range(8)]
    pipes = ["%s/pipe%d" % (folder, feed) for feed in range(8)]
    files = ["%s/file%d" % (folder, feed) for feed in range(8)]
    for pipe, file, log in zip(pipes, files, logs):
        os.mkfifo(pipe)
        with open(file, "wb") as it:
            it.write(log)
    run = start(program, models, pipes)
    writers = [threading.Thread(target=write_slowly, args=(pipe, log, seed)) for seed, (pipe, log) in enumerate(zip(pipes, logs))]
    for writer in writers:
        writer.start()
    output = run.communicate(timeout=PATIENCE)[0]
    for writer in writers:
        writer.join()
    of_files = start(program, models, files)
    wanted = of_files.communicate(timeout=PATIENCE)[0]
    check(b"\n" in wanted and output == wanted and run.returncode == of_files.returncode, "eight pipes give other lines than eight files")


def start_on_two(program, folder, models, names):
    """A run over two named pipes, and the ends to write to."""
    pipes = [folder + "/" + name for name in names]
    for pipe in pipes:
        os.mkfifo(pipe)
    run = start(program, models, pipes)
    return [run] + [open(pipe, "wb", buffering=0) for pipe in pipes]


def end(run, *writers):
    for writer in writers:
        writer.close()
    run.communicate(timeout=PATIENCE)
    check(run.returncode == 0, "pipes that end give another status than 0")


def try_silent(program, folder, models):
    run, talks, silent = start_on_two(program, folder, models, ["talks", "silent"])
    talks.write(b"1 a[x]\n3 b[x]\nclock 9\n")
    check(told(run, SILENCE) == b"", "a feed that has told nothing yet was not waited for")
    silent.write(b"clock 4\n")
    check(told(run, SILENCE) == b"", "a feed in its turn was not waited for")
    silent.write(b"clock 5\n")
    check(told(run, PATIENCE) == b"c at 5 t1=1 t2=3 ?u=x\n", "no line comes once the silent feed has sent its clocks")
    end(run, talks, silent)


def try_ended(program, folder, models):
    run, goes_on, ends = start_on_two(program, folder, models, ["goes_on", "ends"])
    ends.write(b"end\n")
    ends.close()
    goes_on.write(b"1 a[x]\n3 b[x]\nclock 9\n")
    check(told(run, PATIENCE) == b"c at 9 t1=1 t2=3 ?u=x\n", "a feed that has ended holds the others back")
    end(run, goes_on)


def try_twice(program, folder, models):
    log = folder + "/log"
    with open(log, "wb") as it:
        it.write(b"1 a[x]\n3 b[x]\nend\n")
    output = start(program, models, [log, log]).communicate(timeout=PATIENCE)[0]
    check(output == b"c at end t1=1 t2=3 ?u=x\n" * 4, "a file named twice is not two feeds")


def main():
    program = sys.argv[1] if len(sys.argv) > 1 else "crates/crs/out/crs"
    if not os.access(program, os.X_OK):
        print("pipes.py: no program %s" % program, file=sys.stderr)
        return 2
    with tempfile.TemporaryDirectory() as folder:
        models = folder + "/models"
        with open(models, "wb") as it:
            it.write(MODELS)
        for tried in (try_eight, try_silent, try_ended, try_twice):
            tried(os.path.abspath(program), folder, models)
    return 0


sys.exit(main())
