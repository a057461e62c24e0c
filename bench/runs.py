#!/usr/bin/env python3
"""Counts the instructions of one more run in a spool on a full library, by kinds of runs, and of a small run on a small file.

    python3 bench/runs.py [--executable FILE] [--small]

The full library has 25 decks with 49,775 cards and 99,525 entries: a set deletes one half of each deck. Each kind is measured by two spools on copies
of the library, one with a few runs more than the other: the difference, divided by the number of runs more, is what a run costs beside the opening
and the reading of rows into memory. valgrind counts, which takes two to three minutes a spool on the full library; --small leaves it out. The exit
status is 1 where a figure is past its budget.
"""

import argparse
import shutil
import subprocess
import sys
import tempfile
from pathlib import Path

sys.dont_write_bytecode = True
from all import instructions, spooled, text  # noqa: E402
from needs import add_executable, there  # noqa: E402

DECKS, CARDS = 25, 1_991


def full_library():
    """Decks of the most lines that a run can have, and a set that deletes all of the first half of each deck but its first card, in three runs."""
    for deck in range(1, DECKS + 1):
        yield text([f"*DECK D{deck}"] + ["      CONTINUE"] * (CARDS - 1))
    half = CARDS // 2
    yield text(["*IDENT HALF"] + [f"*DELETE D{deck}.2,D{deck}.{half}" for deck in range(1, DECKS + 1)])
    yield text(["*IDENT REST"] + [f"*DELETE D{deck}.{half + 1},D{deck}.{CARDS}" for deck in range(1, DECKS + 1)])


def small_library():
    """A deck of 151 cards."""
    yield text(["*DECK A"] + ["      CONTINUE"] * 150)


def at(place):
    """The Nth set that puts a card behind a card of the first deck."""
    return lambda n: text([f"*IDENT N{n}", f"*INSERT D1.{place}", "      NEW"])


def compiled(n):
    return text([f"*IDENT N{n}", f"*INSERT D1.{CARDS}", "      NEW", "*COMPILE D1"])


def yank_nothing(n):
    """A yank of a set that another one has yanked, from the second run on."""
    return text([f"*IDENT N{n}", "*YANK HALF"])


def one_deleted(n):
    return text([f"*IDENT N{n}", f"*DELETE A.{n + 1}"])


def in_small(place):
    return lambda n: text([f"*IDENT N{n}", f"*INSERT A.{place}", "      NEW"])


# the kind in words, the library, the Nth run, the mode, the numbers of runs in the two spools, and the budget in millions of instructions
KINDS = [
    ("a card at the end of a deck", full_library, at(CARDS), "quick", (4, 8), 10),
    ("a card in the middle of a deck", full_library, at(CARDS // 2), "quick", (4, 8), 30),
    ("a card at the front of a deck", full_library, at(1), "quick", (4, 8), 50),
    ("a card at the end, and the deck compiled", full_library, compiled, "quick", (4, 8), 16),
    ("a yank that switches nothing", full_library, yank_nothing, "quick", (4, 8), 200),
    ("a card deleted, small file", small_library, one_deleted, "quick", (50, 150), 1.3),
    ("a card at the end, small file", small_library, in_small(150), "quick", (50, 150), 4.2),
    ("a card in the middle, small file", small_library, in_small(75), "quick", (50, 150), 5.6),
]


def made(upd, make, folder):
    """A library in a file, and the number of its runs."""
    file = Path(folder) / f"{make.__name__}.db"
    runs = list(make())
    if not file.exists():
        subprocess.run([upd, "init", file], check=True)
        replies = subprocess.run([upd, "spool", file], input=spooled(runs), capture_output=True, check=True).stdout
        assert replies.count(b'"state":"accepted"') == len(runs), replies
    return file


def spool_of(run, mode, count):
    """Runs of another site, as frames."""
    frames = []
    for number in range(1, count + 1):
        bytes_of = run(number)
        frames.append(b"RUN PARIS %d %s %d\n" % (number, mode.encode(), len(bytes_of)) + bytes_of + b"\n")
    return b"".join(frames)


def counted(upd, file, frames, count):
    """Millions of instructions of a spool on a copy of a library; first it is seen that each run is accepted."""
    copy = file.with_name("copy.db")
    words = [upd, "spool", str(copy)]
    for measure in (False, True):
        shutil.copy(file, copy)
        Path(f"{copy}-wal").unlink(missing_ok=True)
        if measure:
            return instructions(words, frames)
        replies = subprocess.run(words, input=frames, capture_output=True, check=True).stdout
        assert replies.count(b'"state":"accepted"') == count, replies[:2000]


def main():
    words = argparse.ArgumentParser(description=__doc__.splitlines()[0])
    add_executable(words)
    words.add_argument("--small", action="store_true", help="leave the full library out")
    words = words.parse_args()
    upd = there(words.executable)
    if instructions(["true"], b"") is None:
        sys.exit("neither perf nor valgrind counts instructions here")
    past = False
    print("| One more run | Instructions | At most |\n|---|---|---|")
    with tempfile.TemporaryDirectory() as folder:
        for what, make, run, mode, (few, many), most in KINDS:
            if words.small and make is full_library:
                continue
            file = made(upd, make, folder)
            fewer, more = (counted(upd, file, spool_of(run, mode, count), count) for count in (few, many))
            each = (more - fewer) / (many - few)
            past |= each > most
            print(f"| {what} | {each:.1f} M | {most} M |", flush=True)
    sys.exit(1 if past else 0)


if __name__ == "__main__":
    main()
