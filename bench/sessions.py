#!/usr/bin/env python3
"""Types the sessions of documents again, and compares each answer with the document.

    python3 bench/sessions.py [--executable FILE] [--write] DOCUMENT..

A session is a fenced block whose first line begins with `$ `. A command goes to the end of its here-document, if it has one. What follows, up to the next
command, is what it writes to both streams. Several blanks count as one, those at the end of a line as none, and ` .. ` replaces blanks. All sessions of a
document are one shell in a new folder, with the executable (crates/upd/out/upd where none is named) on the path as `upd`, and the scripts of examples/.
--write replaces the answers in the document by those that were given; read them before you keep them. The exit status is 1 where an answer differs, or a
document has no session.
"""

import argparse
import os
import re
import subprocess
import sys
import tempfile
from pathlib import Path

sys.dont_write_bytecode = True
from needs import add_executable, there  # noqa: E402

MARK = "@@ end of answer"


def blocks(lines):
    """The fenced blocks: (index of the first line inside, index of the closing fence)."""
    start = None
    for at, line in enumerate(lines):
        if line.startswith("```"):
            if start is None:
                start = at + 1
            else:
                yield start, at
                start = None


def commands(lines, start, end):
    """The commands of a session, each with the range of lines that it is answered with."""
    at = start
    while at < end:
        first = at
        heredoc = re.search(r"<<'?(\w+)'?", lines[at])
        at += 1
        if heredoc:
            while lines[at] != heredoc.group(1):
                at += 1
            at += 1
        answer = at
        while at < end and not lines[at].startswith("$ "):
            at += 1
        yield "\n".join([lines[first][2:]] + lines[first + 1:answer]), answer, at


def answers(typed, folder, executables):
    """What each command writes, in one shell."""
    script = "".join(f"{command}\nsleep 0.2\nprintf '\\n%s\\n' '{MARK}'\n" for command in typed)
    path = f"{executables}:{os.environ['PATH']}"
    shell = subprocess.run(["bash", "-c", script], cwd=folder, env=dict(os.environ, PATH=path), stdin=subprocess.DEVNULL,
                           stdout=subprocess.PIPE, stderr=subprocess.STDOUT, timeout=600)
    parts = shell.stdout.decode().split(f"\n{MARK}\n")
    return [part.rstrip("\n").split("\n") if part.strip("\n") else [] for part in parts[:-1]]


def plain(line):
    """A line with its blanks as one, and none at its end."""
    return re.sub(r" +(\.\. +)?", " ", line.replace("\r", "")).rstrip(" ")


def shortened(line):
    """A line whose compile lines have most of their blanks left out."""
    return re.sub(r" {9,}(\S+?) +(\d)", r" .. \1 \2", line.replace("\r", ""))


def held(document, executables, write):
    """Whether each answer is the one in the document."""
    lines = Path(document).read_text().split("\n")
    sessions, typed = [], []
    with tempfile.TemporaryDirectory() as folder:
        for start, end in blocks(lines):
            if lines[start].startswith("$ "):
                sessions += list(commands(lines, start, end))
        typed = [command for command, _, _ in sessions]
        given = answers(typed, folder, executables)
    same = 0 < len(given) == len(typed)
    for (command, start, end), answer in reversed(list(zip(sessions, given))):
        expected = lines[start:end]
        if list(map(plain, expected)) == list(map(plain, answer)):
            continue
        same = False
        if write:
            lines[start:end] = map(shortened, answer)
        else:
            print(f"{document}:{start}: $ {command}", *(f"- {e}" for e in expected), *(f"+ {a}" for a in answer), sep="\n")
    if write:
        Path(document).write_text("\n".join(lines))
    verdict = "all answered as it says" if same else "not as it says" if typed else "no session in it"
    print(f"{document}: {len(given)} of {len(typed)} commands typed, {verdict}")
    return same


def main():
    parser = argparse.ArgumentParser(description=__doc__.splitlines()[0])
    add_executable(parser)
    parser.add_argument("--write", action="store_true", help="replace the answers in the document by those that were given")
    parser.add_argument("documents", nargs="+", metavar="DOCUMENT")
    given = parser.parse_args()
    with tempfile.TemporaryDirectory() as executables:
        (Path(executables) / "upd").symlink_to(there(given.executable))
        for script in (Path(__file__).resolve().parent.parent / "examples").glob("*.sh"):
            (Path(executables) / script.name).symlink_to(script)
        right = [held(document, executables, given.write) for document in given.documents]
    sys.exit(not all(right))


if __name__ == "__main__":
    main()
