#!/usr/bin/env python3
"""Refuses one allocation after the other: in tests of crates/upd_wire_tests, and in the lasting executable on a library in a file.

    python3 bench/memory.py [--executable FILE] [--every N]

`rt test` in that crate makes the executable of its tests, `rt run` in crates/upd the lasting one. The first allocation is refused, then the second, and
so on until a run meets no refusal; with --every only each Nth allocation of a command. A test then holds, or was itself refused what it needs. A command
answers as with ample memory, or says NoMemory. Its library is then as before, or as after the frames that are answered. Given again, it ends as it does
from the start. The exit status is 1 where that isn't so. It needs `cc`, for a library that is loaded before the C library's allocator.
"""

import argparse
import os
import re
import shutil
import sqlite3
import subprocess
import sys
import tempfile
from pathlib import Path

sys.dont_write_bytecode = True
from needs import add_executable, tests_of, there, tools, without_sums  # noqa: E402

# A disk in memory, since each command waits for the disk.
QUICK = "/dev/shm" if Path("/dev/shm").is_dir() else None

# Is loaded before the C library. It refuses the allocation of the number in REFUSED, and then makes the file MET.
REFUSING = r"""
#include <fcntl.h>
#include <stdlib.h>
#include <unistd.h>

extern void *__libc_malloc(size_t);
extern void *__libc_realloc(void *, size_t);
static long left = -1;

static int is_refused(void) {
    if (left == -1) {
        const char *number = getenv("REFUSED");
        left = number ? atol(number) : 0;
    }
    if (left == 0 || --left > 0)
        return 0;
    int met = open(getenv("MET"), O_WRONLY | O_CREAT, 0600);
    return close(met) == 0;
}

void *malloc(size_t size) { return is_refused() ? NULL : __libc_malloc(size); }
void *realloc(void *old, size_t size) { return is_refused() ? NULL : __libc_realloc(old, size); }
"""

NAMES = [
    "memory_of_desks::one_run_survives_a_refusal",
    "memory_of_desks::purges_survive_a_refusal",
    "memory_of_desks::settlements_survive_a_refusal",
    "memory_of_desks::runs_that_arrive_together_survive_a_refusal",
    "memory_of_streams::a_spool_survives_a_refusal",
    "memory_of_streams::requests_survive_a_refusal",
]
DECK = b"*DECK A\nONE\nTWO\nTHREE\n"
FRAMES = [b"RUN LYON 1 full 22\n" + DECK + b"\n", b"RUN LYON 2 quick 0\n\n", b"RUN LYON 3 full 21\n*IDENT X\n*DELETE A.3\n\n"]
RUNS = [
    ("full", DECK), ("full", b"*IDENT X\n*DELETE A.2\nNEW\n"), ("full", b"*IDENT Y\n*YANK X\n"), ("normal", b"*IDENT Z\n*YANK Y\n*DECK B\nBEE\n"),
    ("full", b"*IDENT W\n*DELETE Z.1\n"), ("quick", b"*PURGE X,*\n"), ("full", b"*IDENT V\n*DELETE A.9\n"),
]
# What a test says that was itself refused memory: an error, and not a check that failed, whose text begins with what it checks.
OWN = re.compile(rb"^ *error: .*(memory|alloc)", re.IGNORECASE | re.MULTILINE)
NO_MEMORY = re.compile(rb"(upd: NoMemory \(28\) at [0-9]+\n)?")
TABLES = ["meta", "idents", "cards", "entries", "targets", "runs", "states", "counts", "settled"]


class Refusing:
    """Runs a program with one refusal."""

    def __init__(self, folder):
        self.met = folder / "met"
        self.library = folder / "refusing.so"
        (folder / "refusing.c").write_text(REFUSING)
        subprocess.run(["cc", "-shared", "-fPIC", "-O1", "-o", self.library, folder / "refusing.c"], check=True)

    def run(self, number, words, text=b""):
        """What came of a program whose allocation of that number is refused, and whether it made as many."""
        self.met.unlink(missing_ok=True)
        there = {**os.environ, "LD_PRELOAD": str(self.library), "REFUSED": str(number), "MET": str(self.met)}
        done = subprocess.run(words, input=text, capture_output=True, check=False, env=there, timeout=60)
        return done, self.met.exists()


def try_test(refusing, tests, name):
    """Whether a test failed after one of its refusals."""
    number, held, right = 1, 0, True
    while True:
        done, met = refusing.run(number, [tests, name])
        if not met:
            break
        held += done.returncode == 0
        if done.returncode not in (0, 101) or (done.returncode == 101 and not OWN.search(done.stdout + done.stderr)):
            if right:
                print("BAD", name, number, done, flush=True)
            right = False
        number += 1
    right = right and done.returncode == 0 and held > 0
    print(f"{'ok ' if right else 'BAD'} {name}: {number - 1} allocations refused, {held} of them in calls, the others the test's own")
    return not right


def tables(file):
    """All rows of a library; nothing where there is none."""
    if not file.exists():
        return []
    with tempfile.TemporaryDirectory(dir=QUICK) as folder:
        copy = Path(folder) / "copy.db"
        restore(file, copy)
        base = sqlite3.connect(copy)
        held = {row[0] for row in base.execute("SELECT name FROM sqlite_master WHERE type = 'table'")}
        found = [(table, sorted(base.execute(f"SELECT * FROM {table}"))) for table in TABLES if table in held]
        base.close()
    return found


def restore(saved, file):
    """A library and its log in the place of another one."""
    for end in ("", "-wal", "-shm"):
        old, new = Path(f"{saved}{end}"), Path(f"{file}{end}")
        new.unlink(missing_ok=True)
        if old.exists():
            shutil.copyfile(old, new)


class Command:
    """A command on a library in a file: what it leaves and answers with ample memory, after each part of its input."""

    def __init__(self, upd, folder, words, parts=(b"",), status=0):
        self.words, self.text = [upd, *words], b"".join(parts)
        self.file, self.before, self.after = folder / "tried.db", folder / "before.db", folder / "after.db"
        restore(self.file, self.before)
        self.states = [(b"", tables(self.file))]
        for count in range(1, len(parts) + 1):
            restore(self.before, self.file)
            done = subprocess.run(self.words, input=b"".join(parts[:count]), capture_output=True, check=False)
            self.states.append((done.stdout, tables(self.file)))
        if done.returncode != status:
            sys.exit(f"{self.words}: {done}")
        self.ample = done
        restore(self.file, self.after)

    def is_right(self, done):
        if (done.returncode, done.stdout, done.stderr) == (self.ample.returncode, self.ample.stdout, self.ample.stderr):
            return tables(self.file) == self.states[-1][1]
        return done.returncode == 3 and NO_MEMORY.fullmatch(done.stderr) and (done.stdout, tables(self.file)) in self.states

    def ends_as_ever(self):
        """Whether the same command, given again with ample memory, ends as it does from the start."""
        done = subprocess.run(self.words, input=self.text, capture_output=True, check=False)
        return (done.returncode, done.stdout) == (self.ample.returncode, self.ample.stdout) and tables(self.file) == self.states[-1][1]

    def try_all(self, refusing, every):
        """1 where a refusal does what it may not."""
        number, tried, lost, bad = 1, 0, 0, 0
        while True:
            restore(self.before, self.file)
            done, met = refusing.run(number, self.words, self.text)
            right = self.is_right(done)
            if not met:
                break
            tried += 1
            lost += done.returncode == 3
            if not right or (done.returncode == 3 and not self.ends_as_ever()):
                bad += 1
                print("BAD", self.words, number, done)
            number += every
        bad += not right
        restore(self.after, self.file)
        print(f"{'BAD' if bad else 'ok '} upd {self.words[1]}: {tried} allocations refused, NoMemory after {lost} of them", flush=True)
        return bad > 0


def make_older(file, version):
    """Leads a library back to an older schema."""
    without_sums(file)
    base = sqlite3.connect(file)
    for table in ["settled", "states", "counts"][:1 if version == 2 else 3]:
        base.execute(f"DROP TABLE {table}")
    base.execute("UPDATE meta SET v = ?", (version,))
    base.commit()
    base.close()


def try_commands(refusing, upd, folder, every):
    """How many commands on one library were answered otherwise than they may be."""
    file = folder / "tried.db"
    bad = Command(upd, folder, ["trial", "full"], [DECK + RUNS[1][1]]).try_all(refusing, every)
    bad += Command(upd, folder, ["init", file]).try_all(refusing, every)
    for number, (mode, run) in enumerate(RUNS, 1):
        bad += Command(upd, folder, ["run", file, "LYON", str(number), mode], [run], int(number == len(RUNS))).try_all(refusing, every)
        if number == 5:
            for words in (["compile", file], ["list", file, "A"], ["history", file, "A.2"], ["idents", file], ["yanks", file]):
                bad += Command(upd, folder, words).try_all(refusing, every)
    bad += Command(upd, folder, ["settle", file, "LYON", "3"]).try_all(refusing, every)
    for version in (2, 1):
        make_older(file, version)
        bad += Command(upd, folder, ["migrate", file]).try_all(refusing, every)
    for old in folder.glob("tried.db*"):
        old.unlink()
    subprocess.run([upd, "init", file], check=True)
    return bad + Command(upd, folder, ["spool", file], FRAMES).try_all(refusing, every)


def main():
    words = argparse.ArgumentParser(description=__doc__.splitlines()[0])
    add_executable(words)
    words.add_argument("--every", metavar="N", type=int, default=1, help="refuse only every Nth allocation of a command (default: 1)")
    words = words.parse_args()
    tools("cc")
    tests, upd = tests_of("upd_wire_tests"), there(words.executable)
    with tempfile.TemporaryDirectory(dir=QUICK) as folder:
        folder = Path(folder)
        refusing = Refusing(folder)
        bad = sum(try_test(refusing, tests, name) for name in NAMES)
        bad += try_commands(refusing, upd, folder, words.every)
    print(f"{bad} wrong")
    return 1 if bad else 0


if __name__ == "__main__":
    sys.exit(main())
