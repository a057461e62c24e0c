#!/usr/bin/env python3
"""Measures commands on a library with large stored replies.

    python3 bench/replies.py [--executable FILE] [--runs N]

The library has five decks with 9,505 cards in all, and N full runs (200 unless --runs says otherwise), whose stored replies have some 930 kB each. Each line
of the table is one command: its processor time, and its peak memory where GNU time reports it. The exit status is 1 where a question that needs no stored
run takes more than 40 MB.
"""

import argparse
import subprocess
import sys
import tempfile
from pathlib import Path

sys.dont_write_bytecode = True
from all import memory, processor, words_of  # noqa: E402
from needs import add_executable, there  # noqa: E402

BUDGET = 40
QUESTIONS = [["idents"], ["list", "D1"], ["compile"]]


def frames(runs):
    """A spool of decks, and of empty full runs."""
    text = b""
    for number in range(1, 6):
        deck = b"*DECK D%d\n" % number + b"      X = 1\n" * 1900
        text += b"RUN LYON %d quick %d\n%s\n" % (number, len(deck), deck)
    return text + b"".join(b"RUN LYON %d full 0\n\n" % number for number in range(6, runs + 6))


def main():
    words = argparse.ArgumentParser(description="Measures commands on a library with large stored replies.")
    add_executable(words)
    words.add_argument("--runs", type=int, default=200, metavar="N", help="how many replies are stored (default: 200)")
    given = words.parse_args()
    upd, late = there(given.executable), 0
    with tempfile.TemporaryDirectory() as folder:
        file = Path(folder) / "replies.db"
        subprocess.run([upd, "init", file], check=True)
        subprocess.run([upd, "spool", file], input=frames(given.runs), stdout=subprocess.DEVNULL, check=True)
        others = [["runs"], ["sites"], ["examine"], ["replay"], ["backup", f"{folder}/copy.db"], ["run", "LYON", str(given.runs + 6), "quick"], ["settle", "LYON", "9"]]
        print(f"{file.stat().st_size / 1e6:.0f} MB\n\n| Command | Processor | Memory |\n|---|---|---|")
        for command in QUESTIONS + others:
            asked = words_of(upd, file, command)
            most = memory(asked, b"")
            Path(f"{folder}/copy.db").unlink(missing_ok=True)
            late += command in QUESTIONS and (most or 0) > BUDGET
            print(f"| {command[0]} | {processor(asked, b''):.0f} ms | {f'{most:.0f} MB' if most else ''} |")
    sys.exit(bool(late))


if __name__ == "__main__":
    main()
