#!/usr/bin/env python3
"""Measures `upd trial full` on the largest runs: wall time, processor time, peak memory, instructions.

    python3 bench/trial.py [--executable FILE] [--times N]

Each run is given to the executable (crates/upd/out/upd where none is named; `rt run` in crates/upd makes it) N times (50 where none is said), in a
process of its own from start to end, and the medians are printed. Instructions are counted once, where valgrind is there. The exit status is 1 where
a median is past its budget.
"""

import argparse
import fcntl
import os
import re
import shutil
import statistics
import subprocess
import sys
import time
from pathlib import Path

sys.dont_write_bytecode = True
from needs import add_executable, there  # noqa: E402

MAX_BYTES = 65_536
MAX_LINES = 2_000
LINE_BYTES = 97


def joined(lines):
    return "".join(line + "\n" for line in lines).encode()


def filled(lines):
    """The lines with comments after them, so that the run has all the bytes and lines that a run may have."""
    wanted = MAX_LINES - len(lines)
    room = MAX_BYTES - len(joined(lines))
    assert wanted > 0 and 3 * wanted <= room <= 81 * wanted, (wanted, room)
    comments = []
    for left in range(wanted, 0, -1):
        size = room // left
        comments.append("*/" + "-" * (size - 3))
        room -= size
    run = joined(lines + comments)
    assert len(run) == MAX_BYTES and run.count(b"\n") == MAX_LINES
    return run


def largest_run():
    """One deck of long lines, and corrections all over it."""
    lines = ["*DECK A"] + [("      X(%d) = Y(%d) + %d.0" % (n, n, n)).ljust(79) + "!" for n in range(600)] + ["*IDENT X"]
    for n in range(2, 452):
        lines += ["*D A.%d" % n, "      GO TO %d" % n] if n % 2 else ["*INSERT A.%d" % n, "C"]
    return filled(lines)


def largest_output():
    """A common deck of a hundred lines that is called a hundred times."""
    lines = ["*COMDECK C"] + ["      CALL S%02d (A, B, C)" % n for n in range(100)]
    return joined(lines + ["*DECK A"] + ["*CALL C"] * 100)


def most_entries():
    """Ranges over a whole deck, up to the most history entries that a library may hold."""
    texts, ranges = 1_875, 104
    return joined(["*DECK A"] + ["T"] * texts + ["*IDENT X"] + ["*DELETE A.2,A.%d" % (texts + 1), "*RESTORE A.2,A.%d" % (texts + 1)] * (ranges // 2))


# the run, the lines that it writes, the budget of processor time in milliseconds, and that of memory in megabytes
CASES = [
    ("largest run", largest_run, None, 5.0, 16.0),
    ("largest output", largest_output, 10_000, 6.0, 16.0),
    ("most entries", most_entries, None, None, None),
]


def peak_memory(pid):
    """The peak of a process that still runs, in kilobytes. (`wait4` would count this interpreter's own, up to the exec.)"""
    for line in Path("/proc/%d/status" % pid).read_text().splitlines():
        if line.startswith("VmHWM:"):
            return int(line.split()[1])
    raise ValueError("no VmHWM")


def once(upd, run):
    """Wall and processor time in milliseconds, peak memory in megabytes, and the output."""
    began = time.perf_counter()
    given, taken = os.pipe(), os.pipe()
    fcntl.fcntl(given[1], fcntl.F_SETPIPE_SZ, 2 * MAX_BYTES)
    fcntl.fcntl(taken[1], fcntl.F_SETPIPE_SZ, 4_096)
    os.write(given[1], run)
    os.close(given[1])
    streams = [(os.POSIX_SPAWN_DUP2, given[0], 0), (os.POSIX_SPAWN_DUP2, taken[1], 1)]
    pid = os.posix_spawn(upd, [upd, "trial", "full"], {}, file_actions=streams)
    os.close(given[0])
    os.close(taken[1])
    output = os.read(taken[0], 1)
    peak = peak_memory(pid)     # it has begun to write more than its pipe holds, so it still runs, and has all its memory
    while piece := os.read(taken[0], 1 << 20):
        output += piece
    os.close(taken[0])
    _, status, used = os.wait4(pid, 0)
    wall = time.perf_counter() - began
    assert status == 0, status
    return wall * 1e3, (used.ru_utime + used.ru_stime) * 1e3, peak / 1e3, output


def instructions(upd, run):
    """Millions of instructions, or None where there is no valgrind."""
    if not shutil.which("valgrind"):
        return None
    words = ["valgrind", "--tool=callgrind", "--callgrind-out-file=/dev/null", upd, "trial", "full"]
    said = subprocess.run(words, input=run, capture_output=True).stderr.decode()
    found = re.search(r"Collected : (\d+)", said)
    return int(found.group(1)) / 1e6 if found else None


def measure(upd, times, name, make, lines, most_time, most_memory):
    run = make()
    rows = [once(upd, run) for _ in range(times)]
    wall, processor, memory = (statistics.median(row[k] for row in rows) for k in range(3))
    found = len(rows[0][3]) // LINE_BYTES
    assert lines in (None, found), found
    counted = instructions(upd, run)
    print("%-15s %6d bytes %5d lines in, %6d lines out: wall %6.2f ms, processor %6.2f ms, memory %5.2f MB%s" % (
        name, len(run), run.count(b"\n"), found, wall, processor, memory, "" if counted is None else ", %.1f million instructions" % counted))
    within = most_time is None or (processor <= most_time and memory <= most_memory)
    if not within:
        print("%-15s past its budget of %.1f ms and %.1f MB" % ("", most_time, most_memory))
    return within


def main():
    words = argparse.ArgumentParser(description=__doc__.splitlines()[0])
    add_executable(words)
    words.add_argument("--times", metavar="N", type=int, default=50, help="processes of each run (default: 50)")
    words = words.parse_args()
    upd = there(words.executable)
    within = [measure(upd, words.times, *case) for case in CASES]
    return 0 if all(within) else 1


if __name__ == "__main__":
    sys.exit(main())
