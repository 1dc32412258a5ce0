"""A log on its way through a server, a feeder and a worker for each part: once straight, and once with all of them but
the server killed at random moments. Both times the lines must be those of one process.

usage: trial.py PROGRAM EVENTS KILLS        (`check` calls it)

The server is started here in a temporary folder, with a socket of its own and no port.
"""

import collections
import contextlib
import os
import random
import subprocess
import sys
import tempfile
import threading
import time
from concurrent.futures import ThreadPoolExecutor, as_completed
from functools import partial

from broker import Broker
from streams import LINES, line_of

HERE = os.path.dirname(os.path.abspath(__file__))
MODELS = os.path.join(HERE, "../parts/models")
MAKE = os.path.join(HERE, "../parts/make")
PARTS = 4
PATIENCE = 20           # seconds after which the server is taken not to start
STEP = 0.02             # seconds between two pieces of a log that grows
PACE = 10000            # events a second of a log that grows
SHORTEST = 5            # seconds in which a log grows, at least

# The server ends, and its folder goes, once the standard input of this ends. That is when the trial has ended in
# whatever way, by `kill -9` too.
GUARD = """
folder=$1
redis-server --port 0 --unixsocket "$folder/socket" --dir "$folder" --save '' --appendonly no >"$folder/server.log" &
read -r _
kill "$!" 2>/dev/null
wait "$!"
rm -r "$folder"
"""


class Fault(Exception):
    """What isn't as it should be, as a sentence."""


def start(*command, **streams):
    """Starts a process that the terminal doesn't interrupt: it ends by itself once the server has ended."""
    return subprocess.Popen(command, start_new_session=True, **streams)


@contextlib.contextmanager
def server():
    """A server for as long as it is wanted: its folder, which has its socket."""
    folder = tempfile.mkdtemp()
    guard = start("sh", "-c", GUARD, "guard", folder, stdin=subprocess.PIPE)
    try:
        wait_for(socket_in(folder))
        yield folder
    finally:
        guard.stdin.close()
        guard.wait()


def socket_in(folder):
    return os.path.join(folder, "socket")


def wait_for(address):
    last = time.monotonic() + PATIENCE
    while time.monotonic() < last:
        with contextlib.suppress(OSError):
            return Broker(address).call("PING")
        time.sleep(0.05)
    raise Fault("redis-server doesn't answer")


class Trial:
    """One way of a log through a server that has nothing yet."""

    def __init__(self, address, program, log):
        self.address = address
        self.program = program
        self.log = log
        self.returns = []       # seconds from the start of a worker until it had dropped all that was delivered
        self._stopped = threading.Event()
        Broker(address).call("FLUSHALL")

    def run(self, feed, work):
        """Feeds the log, and looks after the worker of each part, side by side; the seconds until all have ended."""
        begun = time.monotonic()
        with ThreadPoolExecutor(PARTS + 1) as pool:
            tasks = [pool.submit(feed)] + [pool.submit(work, part) for part in range(PARTS)]
            try:
                for task in as_completed(tasks):
                    task.result()
            except BaseException:
                self._stop()
                raise
        return time.monotonic() - begun

    def _stop(self):
        """Ends the server, and with it feeder and workers."""
        self._stopped.set()
        with contextlib.suppress(OSError):
            Broker(self.address).call("SHUTDOWN", "NOSAVE")

    def _pause(self, seconds):
        if self._stopped.wait(seconds):
            raise Fault("the trial was stopped")

    def feed(self):
        """Feeds the whole log as fast as it goes."""
        with open(self.log, "rb") as log:
            expect_end(self._feeder(log), "the feeder")

    def feed_slowly(self, seconds, kills):
        """Feeds the log as it would grow in so many seconds, with a feeder that is killed, and is started again."""
        with open(self.log, "rb") as log:
            text = log.read()
        cuts = sorted(random.randrange(len(text)) for _ in range(kills))
        for begin, end in zip([0, *cuts], [*cuts, len(text)]):
            feeder = self._feeder(subprocess.PIPE)
            feeder.stdin.write(text[:begin])
            self._grow(feeder.stdin, text[begin:end], seconds * (end - begin) / len(text))
            if end < len(text):
                expect_killed(feeder, "the feeder")
        feeder.stdin.close()
        expect_end(feeder, "the feeder")

    def _grow(self, sink, text, seconds):
        pieces = int(seconds / STEP) + 1
        for piece in range(pieces):
            sink.write(text[len(text) * piece // pieces : len(text) * (piece + 1) // pieces])
            sink.flush()
            self._pause(STEP)

    def work(self, part):
        """Has a worker do its part from beginning to end."""
        with self._worker(part) as worker:
            expect_end(worker, "a worker")

    def work_killed(self, part, kills, seconds):
        """Kills the worker of a part so many times, each within so many seconds of its start, and then has it end."""
        for _ in range(kills):
            with self._worker(part, stderr=subprocess.DEVNULL) as worker:
                self._pause(random.uniform(0, seconds))
                expect_killed(worker, "a worker")
        self.work(part)

    @contextlib.contextmanager
    def _worker(self, part, **streams):
        """A worker, with a note of when it is back if it lives to say so."""
        command = [os.path.join(HERE, "worker"), self.address, str(part), self.program, MODELS]
        begun = time.monotonic()
        worker = start(*command, stdout=subprocess.PIPE, **streams)
        watch = threading.Thread(target=self._watch, args=(worker, begun))
        watch.start()
        yield worker
        watch.join()

    def _watch(self, worker, begun):
        with worker.stdout as told:
            if told.readline():
                self.returns.append(time.monotonic() - begun)

    def _feeder(self, source):
        return start(os.path.join(HERE, "feeder"), self.address, str(PARTS), stdin=source)

    def compare(self, wanted):
        """Looks whether the same lines as wanted stand at each mark."""
        found = by_mark(delivered_lines(self.address))
        others = sorted(mark for mark in {*found, *wanted} if found[mark] != wanted[mark])
        if others:
            raise Fault("%d marks have other lines than of one process, such as %s" % (len(others), others[0].decode()))


def expect_end(process, name):
    if process.wait() != 0:
        raise Fault("%s ended with status %d" % (name, process.returncode))


def expect_killed(process, name):
    """Kills a process, with the signal that none can catch."""
    if process.poll() is not None:
        raise Fault("%s had ended before it was killed" % name)
    process.kill()
    process.wait()


def by_mark(lines):
    """How often each line stands at each mark."""
    marks = collections.defaultdict(collections.Counter)
    for line in lines:
        words = line.split()
        marks[words[2] if words[1] == b"at" else b"none"][line] += 1
    return marks


def delivered_lines(address):
    """All lines in the stream of lines."""
    broker, first, lines = Broker(address), "-", []
    while entries := broker.call("XRANGE", LINES, first, "+", "COUNT", 10000):
        lines += map(line_of, entries)
        first = b"(" + entries[-1][0]
    return lines


def made_log(folder, events):
    log = os.path.join(folder, "log")
    with open(log, "wb") as made:
        subprocess.run(["awk", "-v", "N=%d" % events, "-f", MAKE], stdout=made, check=True)
    return log


def lines_of_one(program, log):
    run = subprocess.run([program, "run", MODELS, log], stdout=subprocess.PIPE)
    if run.returncode != 0:
        raise Fault("%s ended with status %d" % (program, run.returncode))
    return run.stdout.splitlines()


def go_straight(trial, events, wanted):
    seconds = trial.run(trial.feed, trial.work)
    trial.compare(wanted)
    print("straight: the same lines, and %d events a second" % (events / seconds))
    begun = time.monotonic()
    trial.work(0)
    print("a worker that is started again behind the end has read its part in %.2f s" % (time.monotonic() - begun))


def go_with_kills(trial, events, kills, wanted):
    seconds = max(SHORTEST, events / PACE)
    # so all kills come before the log has ended
    each = seconds / (kills + 1)
    trial.run(partial(trial.feed_slowly, seconds, kills), lambda part: trial.work_killed(part, kills, each))
    trial.compare(wanted)
    print("the feeder and each worker killed %d times within %.0f s: the same lines" % (kills, seconds))
    if trial.returns:
        counts = len(trial.returns), min(trial.returns), max(trial.returns)
        print("%d of the workers that were started again lived to be back, after %.2f to %.2f s" % counts)


def main():
    program, events, kills = sys.argv[1], int(sys.argv[2]), int(sys.argv[3])
    with server() as folder:
        address, log = socket_in(folder), made_log(folder, events)
        lines = lines_of_one(program, log)
        wanted = by_mark(lines)
        print("%d events, %d lines of one process at %d marks" % (events, len(lines), len(wanted)))
        go_straight(Trial(address, program, log), events, wanted)
        go_with_kills(Trial(address, program, log), events, kills, wanted)


try:
    sys.stdout.reconfigure(line_buffering=True)
    main()
except (Fault, OSError) as fault:
    print("check: %s" % fault, file=sys.stderr)
    sys.exit(1)
except KeyboardInterrupt:
    sys.exit(130)
