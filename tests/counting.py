"""Counts the instructions that gm_play takes for scripts, as tests/costs and bench/growth do. It needs valgrind, or a processor whose
instructions perf counts.

The instructions of a tail are those of the whole script without those of its set-up. For most, a tick that changes nothing comes behind the
set-up for each line of the tail, because gm_play asks each connection for its bytes after each line.
"""
import collections
import concurrent.futures
import os
import re
import shutil
import subprocess
import tempfile

from packets import kind_of, units_of
from trials import ROOM_PATH, Wrong, library, program, same

PROGRAM = program("gm_play", "gm_play")
# Tables are hashed alike in each run.
ENV = {**os.environ, "LD_PRELOAD": str(library()), "FAIL": "steady"}
COUNTERS = {
    "valgrind": (["valgrind", "--tool=callgrind", "--callgrind-out-file=/dev/null"], r"Collected : ([0-9]+)"),
    "perf": (["perf", "stat", "-x,", "-e", "instructions:u"], r"^([0-9]+),"),
}
AT_ONCE = 2


def play(counter, options, script):
    """How many instructions a script takes, and what is printed for it."""
    words, pattern = COUNTERS[counter]
    # A file is read alike each time, and a pipe isn't.
    with tempfile.TemporaryFile(dir=ROOM_PATH) as file:
        file.write(script.encode())
        file.seek(0)
        done = subprocess.run([*words, PROGRAM, *options], stdin=file, env=ENV, capture_output=True, check=False)
    found = re.search(pattern, done.stderr.decode(), re.M)
    if done.returncode or not found:
        raise Wrong(f"status {done.returncode}: {done.stderr.decode()[-300:]}")
    return int(found[1]), done.stdout.decode()


def can_count(counter):
    """Whether it is there, and counts the instructions of some program."""
    if not shutil.which(counter):
        return False
    words, pattern = COUNTERS[counter]
    done = subprocess.run([*words, "true"], capture_output=True, text=True, check=False)
    return re.search(pattern, done.stderr, re.M) is not None


def counter_here():
    """The name of what counts instructions here, or None."""
    return next((name for name in COUNTERS if can_count(name)), None)


def answers(printed):
    """How many packets of each type are sent, and how many lines."""
    streams = {}
    for line in printed.splitlines():
        if sent := re.fullmatch("([0-9]+) ((?:[0-9a-f]{2})+)", line):
            streams.setdefault(sent[1], bytearray()).extend(bytes.fromhex(sent[2]))
    return collections.Counter(kind_of(unit) for stream in streams.values() for unit in units_of(bytes(stream))[0])


class Plays:
    """Plays scripts, each once, some at a time."""

    def __init__(self, counter):
        self.pool = concurrent.futures.ThreadPoolExecutor(AT_ONCE)
        self.counter, self.found = counter, {}

    def begin(self, script, length):
        """A script of this length: with a remark behind it. What it gives once it is asked for its result."""
        text = "\n".join(script.lines)
        key = (*script.options, text + "\n" + (length - len(text) - 1) * "#")
        if key not in self.found:
            self.found[key] = self.pool.submit(play, self.counter, script.options, key[-1])
        return self.found[key]

    def both(self, cost, size):
        """The script without the tail and with it, and the answers that have to come of the tail. Scripts of one length are read alike."""
        script, without = cost.setup(size), cost.setup(size)
        begin = len(script.lines)
        wanted = cost.tail(script)
        if not cost.counts_lines:
            without.lines += (len(script.lines) - begin) * ["tick 0"]
        length = 1 << len("\n".join(script.lines)).bit_length()
        return self.begin(without, length), self.begin(script, length), wanted


def instructions(without, with_tail, wanted):
    """Those of the tail, which does what it is to do."""
    (before, first), (after, whole) = without.result(), with_tail.result()
    same("what comes of it", answers(whole) - answers(first), collections.Counter(wanted))
    return after - before
