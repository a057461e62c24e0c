#!/usr/bin/env python3
"""Examines libraries by `upd examine`: sound ones, libraries of which a row was changed by hand, and whatever else can be at a path.

    python3 bench/examine.py [--executable FILE] [--changes N] [--runs N] [--small N] [--seed N]

Libraries are made of the examples and of random runs (--runs in each, 60 unless it says otherwise), by `upd run`, `upd spool` and `upd settle`. Small ones are
made of up to 15 random runs in one spool (--small of them, 200 unless it says otherwise). Each library is called sound, with the numbers that its tables have.
Then rows are changed by Python's SQLite (--changes in all, 300 unless it says otherwise), each in a copy of a library that is not small. changes.py says of
each kind of change which rule it breaks. Each is found, and no examination changes a byte of the file. At last come the situations of a path that is no
library. The exit status is 1 where this does not hold.
"""

import argparse
import collections
import os
import random
import shutil
import sqlite3
import subprocess
import sys
import tempfile
from pathlib import Path

sys.dont_write_bytecode = True
from changes import CHANGES, TABLES  # noqa: E402
from needs import ROOT, add_executable, there, without_sums  # noqa: E402
from paths import try_paths  # noqa: E402

EXAMPLES = ROOT / "examples/runs"
TEXTS = [f"      X = {number}" for number in range(20)] + ["", "C     A REMARK", "*CALL COMMON", "      END"]
SITES = ["LYON", "PARIS", "ROMA"]
MODES = ["full", "quick", "normal"]
# What a line of findings begins with: a table of the library, a deck, or the whole.
SUBJECTS = set(TABLES) - {"meta"} | {"decks", "library", "rows"}


def examined(upd, file):
    """What `upd examine` says of a file, and whether it left its bytes."""
    before = Path(file).read_bytes()
    ended = subprocess.run([upd, "examine", file], capture_output=True, text=True, check=False)
    return ended.returncode, ended.stdout, ended.stderr, Path(file).read_bytes() == before


def counts_line(file):
    """The line of a sound library: the numbers of held decks, of cards, of stored runs and of bytes of replies, counted in its tables, and its size."""
    db = sqlite3.connect(file)
    texts = ["idents WHERE held = 1 AND kind <> 0", "cards", "runs"]
    decks, cards, runs = (db.execute(f"SELECT count(*) FROM {text}").fetchone()[0] for text in texts)
    replies = db.execute("SELECT coalesce(sum(length(reply)), 0) FROM runs").fetchone()[0]
    db.close()
    return f"sound: decks {decks}, cards {cards}, runs {runs}, replies {replies}, file {Path(file).stat().st_size}\n"


class Writer:
    """Writes random runs, of which most are accepted by the library that they were written for."""

    def __init__(self, dice, yanks):
        self.dice, self.yanks, self.decks, self.sets = dice, yanks, [], []

    def run(self):
        dice, lines = self.dice, []
        if not self.decks or dice.random() < 0.2:
            lines += self.deck()
        if dice.random() < 0.9:
            lines += self.set()
        if self.yanks and self.sets and dice.random() < 0.1:
            lines.append(f"*PURGE {self.sets.pop(dice.randrange(len(self.sets)))[0]}")
        if len(self.decks) > 3 and dice.random() < 0.1:
            lines.append(f"*PURDECK {self.decks.pop(dice.randrange(len(self.decks)))[0]}")
        return "".join(f"{line}\n" for line in lines)

    def deck(self):
        name, texts = f"D{self.dice.randrange(1000)}", self.dice.choices(TEXTS, k=self.dice.randrange(8))
        self.decks.append((name, len(texts) + 1))
        head = self.dice.choice(["*DECK {}", "*DECK {}", "*COMDECK {}", "*COMDECK {},NOPROP"])
        return [head.format(name)] + texts

    def set(self):
        dice, name = self.dice, f"S{self.dice.randrange(1000)}"
        lines = [f"*IDENT {name}"]
        for _ in range(dice.randrange(1, 4)):
            deck, cards = dice.choice(self.decks)
            first, last = sorted(dice.choices(range(min(2, cards), cards + 1), k=2))
            texts = dice.choices(TEXTS, k=dice.randrange(3))
            lines += dice.choice([[f"*INSERT {deck}.{first}"] + texts, [f"*DELETE {deck}.{first},{deck}.{last}"] + texts, [f"*RESTORE {deck}.{last}"]])
        if self.yanks and self.sets and dice.random() < 0.5:
            older = dice.choice(self.sets)[0]
            deck = dice.choice(self.decks)[0]
            lines.append(dice.choice([f"*YANK {older}", f"*YANK {older}", f"*SELYANK {deck}.{older}", f"*YANKDECK {deck}"]))
        self.sets.append((name, 0))
        return lines


def done(upd, *words, reads=""):
    """Runs a command of upd, of which a refusal is no mistake."""
    ended = subprocess.run([upd, *words], input=reads, capture_output=True, text=True, check=False)
    if ended.returncode > 1:
        sys.exit(f"upd {' '.join(map(str, words))}: status {ended.returncode}, {ended.stderr}")


def from_examples(upd, file):
    """A library of the examples, some of which are refused since others have their names."""
    for number, run in enumerate(sorted(EXAMPLES.glob("*.run")), 1):
        done(upd, "run", file, "LYON", str(number), "full", reads=run.read_text(encoding="ascii"))


def from_runs(upd, file, dice, count, yanks=True):
    """A library of random runs, sent one by one; two sites settle now and then, the third never."""
    writer, numbers = Writer(dice, yanks), collections.Counter()
    for _ in range(count):
        site = dice.choice(SITES)
        numbers[site] += 1
        done(upd, "run", file, site, str(numbers[site]), dice.choice(MODES), reads=writer.run())
        if site != SITES[2] and dice.random() < 0.1:
            done(upd, "settle", file, site, str(max(1, numbers[site] - 3)))


def from_spool(upd, file, dice, count):
    """A library of random runs in one spool."""
    writer, text = Writer(dice, True), ""
    for number in range(1, count + 1):
        run = writer.run()
        text += f"RUN {dice.choice(SITES)} {number} {dice.choice(MODES)} {len(run)}\n{run}\n"
    done(upd, "spool", file, reads=text)


def libraries(upd, folder, dice, count):
    """The files of sound libraries."""
    makers = {
        "empty": lambda file: None,
        "examples": lambda file: from_examples(upd, file),
        "plain": lambda file: from_runs(upd, file, dice, count, yanks=False),
        "spool": lambda file: from_spool(upd, file, dice, count),
        **{f"runs{n}": lambda file: from_runs(upd, file, dice, count) for n in range(3)},
    }
    for name, make in makers.items():
        file = folder / f"{name}.db"
        done(upd, "init", file)
        make(file)
        yield file


def small_libraries(upd, folder, dice, count):
    """The files of sound libraries of a few random runs each. For every second one a site settles some of its runs."""
    for number in range(count):
        file, runs = folder / f"small{number}.db", dice.randrange(1, 16)
        done(upd, "init", file)
        from_spool(upd, file, dice, runs)
        if number % 2:
            done(upd, "settle", file, dice.choice(SITES), str(dice.randrange(1, runs + 1)))
        yield file


def try_sound(upd, files):
    """Each library is called sound."""
    bad = 0
    for file in files:
        line = counts_line(file)
        if examined(upd, file) != (0, line, "", True):
            bad += 1
            print("BAD sound library", file.name, line, examined(upd, file))
    print(f"{len(files)} sound libraries, {bad} of them wrong")
    return bad


def changed(dice, file, copy, change):
    """Makes a change in a copy of a library, at a random row. Returns whether there is a row for it."""
    Path(f"{copy}-wal").unlink(missing_ok=True)
    shutil.copyfile(file, copy)
    without_sums(copy)
    db = sqlite3.connect(copy, isolation_level=None)
    rows = db.execute(f"SELECT t.rowid {change.picks}").fetchall()
    if rows:
        row = dice.choice(rows)[0]
        db.execute(change.sql, (row,) if "?1" in change.sql else ())
    db.close()
    return bool(rows)


def is_found(change, said):
    """Whether an examination says what it has to of a change."""
    status, output, faults, same = said
    lines = faults.splitlines()
    if change.status == 3:
        right = len(lines) == 1 and lines[0].startswith("upd: ") and "Store" not in lines[0]
    else:
        right = 0 < len(lines) <= 100 and all(line.split(" ")[0] in SUBJECTS for line in lines)
    return status == change.status and output == "" and faults.endswith("\n") and right and same


def try_changes(upd, folder, dice, files, count):
    """Each change is found. The kinds come in turn, each at a library that has a row for it, which is picked at random."""
    made, bad, copy = collections.Counter(), 0, folder / "changed.db"
    for turn in range(count):
        change = CHANGES[turn % len(CHANGES)]
        for file in dice.sample(files, len(files)):
            if changed(dice, file, copy, change):
                made[change] += 1
                if not is_found(change, examined(upd, copy)):
                    bad += 1
                    print("BAD change", change.table, change.what, file.name, examined(upd, copy))
                break
    by_table = collections.Counter(change.table for change in made.elements())
    print(f"{sum(by_table.values())} changes of {len(made)} kinds, {bad} of them not found: {dict(by_table)}")
    for change in CHANGES[:count]:
        if not made[change]:
            bad += 1
            print("BAD no library has a row for", change.table, change.what)
    return bad


def main():
    words = argparse.ArgumentParser(description=__doc__.splitlines()[0])
    add_executable(words)
    words.add_argument("--changes", metavar="N", type=int, default=300, help="how many changes are made (default: 300)")
    words.add_argument("--runs", metavar="N", type=int, default=60, help="how many random runs a library gets (default: 60)")
    words.add_argument("--small", metavar="N", type=int, default=200, help="how many small libraries are made (default: 200)")
    words.add_argument("--seed", metavar="N", type=int, default=1, help="what the random numbers begin with (default: 1)")
    given = words.parse_args()
    upd, dice = there(given.executable), random.Random(given.seed)
    with tempfile.TemporaryDirectory() as name:
        folder = Path(name)
        os.chmod(folder, 0o755)
        files = list(libraries(upd, folder, dice, given.runs))
        small = list(small_libraries(upd, folder, dice, given.small))
        bad = try_sound(upd, files + small) + try_changes(upd, folder, dice, files, given.changes) + try_paths(upd, folder)
    sys.exit(bool(bad))


if __name__ == "__main__":
    main()
