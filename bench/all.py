#!/usr/bin/env python3
"""Measures everything: how the program's cost grows with cards, decks, yanks and idents, and then the other measurements of this folder.

    python3 bench/all.py [--executable FILE] [--times N] [--growth]

Each line of the table is one command of the executable (crates/upd/out/upd where none is named) on one library. It has the median processor time of N
processes (9 where none is said), millions of instructions where `perf` or `valgrind` counts them, and peak memory where GNU time reports it. --growth makes
only the table. Without it trial.py, apply.py and wire.py --times follow; each needs what its own first lines say. The exit status is 1 where one
of these is past its budget.
"""

import argparse
import re
import resource
import shutil
import statistics
import subprocess
import sys
import tempfile
from pathlib import Path

sys.dont_write_bytecode = True
from needs import add_executable, there  # noqa: E402

HERE = Path(__file__).resolve().parent
THREE_LINES = b"*IDENT NEW\n*DELETE D1.2\n      CONTINUE\n"


def text(lines):
    return "".join(line + "\n" for line in lines).encode()


def decks(count, cards):
    """Runs that add decks with this number of cards each, the first card among them."""
    for first in range(1, count + 1, max(1, 2000 // cards)):
        few = range(first, min(first + max(1, 2000 // cards), count + 1))
        yield text(line for deck in few for line in [f"*DECK D{deck}"] + ["      CONTINUE"] * (cards - 1))


def sets(count):
    """Runs that add sets, a hundred in each, which each restore the first text."""
    for first in range(1, count + 1, 100):
        few = range(first, min(first + 100, count + 1))
        yield text(line for n in few for line in [f"*IDENT S{n}", "*RESTORE D1.2"])


def yanks(count):
    """Runs that add a set, and sets that each yank the one before it."""
    yield text(["*IDENT S1", "*DELETE D1.2"])
    for first in range(2, count + 2, 100):
        few = range(first, min(first + 100, count + 2))
        yield text(line for n in few for line in [f"*IDENT S{n}", f"*YANK S{n - 1}"])


# the library's size in words, and its runs
LIBRARIES = [
    ("500 cards", lambda: [*decks(1, 500), *sets(1)]),
    ("5,000 cards in 5 decks", lambda: [*decks(5, 1000), *sets(1)]),
    ("49,975 cards in 25 decks", lambda: [*decks(25, 1999)]),
    ("2,000 cards in 1 deck", lambda: [*decks(1, 2000), *sets(1)]),
    ("2,000 cards in 100 decks", lambda: [*decks(100, 20), *sets(1)]),
    ("2,000 cards in 1,000 decks", lambda: [*decks(1000, 2), *sets(1)]),
    ("500 cards, 100 yanks in a row", lambda: [*decks(1, 500), *yanks(100)]),
    ("500 cards, 900 yanks in a row", lambda: [*decks(1, 500), *yanks(900)]),
    ("500 cards, 400 sets", lambda: [*decks(1, 500), *sets(400)]),
    ("500 cards, 4,000 sets", lambda: [*decks(1, 500), *sets(4000)]),
]

# the command in words, its arguments, and its input: that of the first run where it is None
COMMANDS = [
    ("a quick run of three lines", ["run", "LYON", "99999", "quick"], THREE_LINES),
    ("a normal run of three lines", ["run", "LYON", "99999", "normal"], THREE_LINES),
    ("the first run sent again", ["run", "LYON", "1", "quick"], None),
    ("idents", ["idents"], b""),
    ("list D1", ["list", "D1"], b""),
    ("compile", ["compile"], b""),
]


def words_of(upd, file, words):
    return [upd, words[0], str(file), *words[1:]]


def processor(words, given):
    """Milliseconds of processor time."""
    before = resource.getrusage(resource.RUSAGE_CHILDREN)
    subprocess.run(words, input=given, stdout=subprocess.DEVNULL, stderr=subprocess.DEVNULL)
    after = resource.getrusage(resource.RUSAGE_CHILDREN)
    return (after.ru_utime + after.ru_stime - before.ru_utime - before.ru_stime) * 1e3


def memory(words, given):
    """Megabytes at the peak, or None where GNU time isn't there. (A child of this interpreter would count the interpreter's own.)"""
    if not Path("/usr/bin/time").exists():
        return None
    done = subprocess.run(["/usr/bin/time", "-f", "%M", *words], input=given, stdout=subprocess.DEVNULL, stderr=subprocess.PIPE)
    return int(done.stderr.split()[-1]) / 1e3


def by_perf(words, given=b""):
    """What `perf` counts, or None where this machine lets it count nothing."""
    said = subprocess.run(["perf", "stat", "-x,", "-e", "instructions:u", *words], input=given, capture_output=True).stderr.decode()
    found = re.search(r"^(\d+),.*instructions", said, re.M)
    return int(found.group(1)) / 1e6 if found else None


PERF_COUNTS = shutil.which("perf") is not None and by_perf(["true"]) is not None


def instructions(words, given):
    """Millions of instructions, or None where nothing counts them. The command is run once: a run that comes again is a repeat."""
    if PERF_COUNTS:
        return by_perf(words, given)
    if shutil.which("valgrind"):
        said = subprocess.run(["valgrind", "--tool=callgrind", "--callgrind-out-file=/dev/null", *words], input=given, capture_output=True).stderr.decode()
        if found := re.search(r"Collected : (\d+)", said):
            return int(found.group(1)) / 1e6
    return None


def spooled(runs):
    return b"".join(b"RUN LYON %d quick %d\n" % (number, len(run)) + run + b"\n" for number, run in enumerate(runs, 1))


def on_copies(upd, file, words, given, times):
    """Processor time, instructions and memory of a command, each time on a copy of the library."""
    copy = file.with_name("copy.db")

    def on_copy(measure):
        shutil.copy(file, copy)
        Path(f"{copy}-wal").unlink(missing_ok=True)
        return measure(words_of(upd, copy, words), given)

    return statistics.median(on_copy(processor) for _ in range(times)), on_copy(instructions), on_copy(memory)


def growth(upd, times):
    print("| Library | Command | Processor | Instructions | Memory |\n|---|---|---|---|---|")
    for size, make in LIBRARIES:
        runs = make()
        with tempfile.TemporaryDirectory() as folder:
            file = Path(folder) / "library.db"
            subprocess.run([upd, "init", file], check=True)
            replies = subprocess.run([upd, "spool", file], input=spooled(runs), capture_output=True, check=True).stdout
            assert replies.count(b'"state":"accepted"') == len(runs), replies
            for what, words, given in COMMANDS:
                spent, counted, peak = on_copies(upd, file, words, runs[0] if given is None else given, times)
                shown_count = "" if counted is None else f"{counted:.0f} M"
                shown_peak = "" if peak is None else f"{peak:.1f} MB"
                print(f"| {size} | {what} | {spent:.1f} ms | {shown_count} | {shown_peak} |", flush=True)


def main():
    words = argparse.ArgumentParser(description=__doc__.splitlines()[0])
    add_executable(words)
    words.add_argument("--times", metavar="N", type=int, default=9, help="processes of each command in the table (default: 9)")
    words.add_argument("--growth", action="store_true", help="make only the table")
    words = words.parse_args()
    upd = there(words.executable)
    growth(upd, words.times)
    if words.growth:
        return 0
    others = [["trial.py", "--executable", upd], ["apply.py"], ["wire.py", "--executable", upd, "--times"]]
    late = False
    for name, *rest in others:
        print(f"\n{name}", flush=True)
        late = subprocess.run([sys.executable, HERE / name, *rest]).returncode != 0 or late
    return 1 if late else 0


if __name__ == "__main__":
    sys.exit(main())
