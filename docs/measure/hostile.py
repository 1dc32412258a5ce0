#!/usr/bin/env python3
"""Tries to slow the program down by symbols that collide in its table, and fails where that works.

usage: hostile.py [PROGRAM]        crates/crs/out/crs where none is given

Who writes a log chooses its symbols, and a table of symbols is slow where they all have one hash. The hash
depends on a seed. `colliding.py` computes symbols for a seed that is known, and this shows two things of them:

1. They do collide. `crs model` reads its models with the seed 0. Of symbols for that seed, 8,000 values in a
   models text must take ten times as long as random ones of the same lengths, or else they prove nothing below.
2. `crs run` doesn't care, as it takes its seed at random at each start. A log of 50,000 events, each with a new
   symbol for the seed 0, must not take more than twice as long as one with random symbols of the same lengths.

It doesn't show that a random seed can't be guessed, or that no symbols collide under all seeds.

What is compared is processor time, the least of several runs of both in turn, and a difference below SLACK counts
as none. The status is 0 where both hold, 2 where there is no program, and 1 else.
"""

import os
import resource
import subprocess
import sys
import tempfile

sys.dont_write_bytecode = True
import colliding  # noqa: E402

SLACK = 0.05        # seconds
LONGEST = 10        # seconds of processor time after which a run is ended
FEWEST, MOST = 3, 12
KINDS = ("random", "0")


def end_late_runs():
    resource.setrlimit(resource.RLIMIT_CPU, (LONGEST, LONGEST))


def spent():
    usage = resource.getrusage(resource.RUSAGE_CHILDREN)
    return usage.ru_utime + usage.ru_stime


def timed(words):
    """The processor seconds of a run, and its output: no end of seconds and none where it was ended."""
    before = spent()
    run = subprocess.run(words, stdout=subprocess.PIPE, preexec_fn=end_late_runs)
    seconds = spent() - before
    if run.returncode == 0:
        return seconds, run.stdout
    if seconds > LONGEST - 1:
        return float("inf"), None
    sys.exit("hostile.py: %s: status %d" % (" ".join(words), run.returncode))


def least(commands, is_enough):
    """The least seconds of each of two commands, run in turn until these are enough, and their last outputs."""
    best, outputs = [float("inf")] * 2, [None] * 2
    for turn in range(MOST):
        for i, words in enumerate(commands):
            seconds, outputs[i] = timed(words)
            best[i] = min(best[i], seconds)
        if None in outputs or (turn + 1 >= FEWEST and is_enough(*best)):
            break
    return best, outputs


def collide(random, chosen):
    return chosen > 10 * random and chosen > random + SLACK


def are_alike(random, chosen):
    return chosen < float("inf") and (chosen <= 2 * random or chosen <= random + SLACK)


def told(what, best):
    random, chosen = ("%.3f s" % s if s < LONGEST else "over %d s" % (LONGEST - 1) for s in best)
    print("%s: %s, with random symbols %s" % (what, chosen, random))


def models_are_slow(program, folder):
    commands = []
    for kind in KINDS:
        path = os.path.join(folder, "values." + kind)
        with open(path, "w") as f:
            f.writelines(colliding.values(kind, 8000))
        commands.append([program, "model", path])
    best, _ = least(commands, collide)
    told("8,000 values that collide under the seed 0, read with it", best)
    if collide(*best):
        return True
    print("hostile.py: the symbols don't collide: does colliding.py compute the program's hash?", file=sys.stderr)
    return False


def logs_are_fast(program, folder):
    models = os.path.join(folder, "models")
    with open(models, "w") as f:
        f.write(colliding.MODELS)
    commands = []
    for kind in KINDS:
        path = os.path.join(folder, "log." + kind)
        with open(path, "w") as f:
            f.writelines(colliding.events(kind, 50000))
        commands.append([program, "run", "--summary", models, path])
    best, outputs = least(commands, are_alike)
    told("50,000 events whose symbols collide under the seed 0, read with another", best)
    if not all(output.startswith(b"summary entries 50000 refused 0 ") for output in outputs if output is not None):
        print("hostile.py: an event is refused", file=sys.stderr)
        return False
    if are_alike(*best):
        return True
    print("hostile.py: symbols that collide slow a run down: is its table seeded at random?", file=sys.stderr)
    return False


def main():
    here = os.path.dirname(os.path.abspath(__file__))
    program = sys.argv[1] if len(sys.argv) > 1 else os.path.join(here, "../../crates/crs/out/crs")
    if not os.access(program, os.X_OK):
        print("hostile.py: no program at %s" % program, file=sys.stderr)
        return 2
    program = os.path.abspath(program)
    with tempfile.TemporaryDirectory() as folder:
        collided = models_are_slow(program, folder)
        return 0 if logs_are_fast(program, folder) and collided else 1


if __name__ == "__main__":
    sys.exit(main())
