"""A library that two sites correct, and what one of them hears of its edit. `conflicts.py` and its parts use this."""

import shutil
import subprocess
import sys
from pathlib import Path

from edits import Library

OFF = "is off already, by"
PURGED = " was purged after "


class Shared(Library):
    """A library that two sites correct."""

    has_run_at = False

    def ended(self, command, *words, reads=""):
        """What a command on the library says, whatever its status; it doesn't fail otherwise."""
        ended = subprocess.run([self.upd, command, self.file, *words], input=reads, capture_output=True, text=True, check=False)
        if ended.returncode > 1 or ended.returncode < 0:
            sys.exit(f"upd {command} {' '.join(words)}: status {ended.returncode}, {ended.stderr}{ended.stdout}\n{reads}")
        return ended

    def sent(self, site, number, run):
        return self.said("run", site, str(number), "quick", reads=run)

    def text(self):
        """The text of deck A, empty where it isn't held."""
        return self.ended("text", "A").stdout

    def rows(self):
        """What a run that isn't stored leaves as it was."""
        return [self.ended(command, *words).stdout for command, *words in (["idents"], ["runs"], ["list", "A"])]

    def listed(self):
        """The cards of deck A: of each its name, and whether it is active."""
        lines = [line.split(" ", 2) for line in self.ended("list", "A").stdout.splitlines()[1:]]
        return {name: status == "A" for status, name, _ in lines}

    def copied(self, file):
        """A copy, with its log."""
        for suffix in ["", "-wal"]:
            if Path(f"{self.file}{suffix}").exists():
                shutil.copy(f"{self.file}{suffix}", f"{file}{suffix}")
        copy = Shared.__new__(Shared)
        copy.upd, copy.file, copy.runs = self.upd, file, 0
        return copy


class Heard:
    """What LYON hears of its edit, and what comes of it."""

    def __init__(self):
        self.run, self.refusal, self.words, self.purges, self.half, self.text, self.wrong = "", "", [], [], [], None, []

    def has_word(self):
        return bool(self.refusal or self.words or self.purges)


def tried(library, since, run, heard):
    """Tries a run as of an ident."""
    plain, at = library.ended("try", "quick", reads=run), library.ended("try-at", "quick", since, reads=run)
    if at.returncode:
        heard.refusal = at.stdout or at.stderr
    heard.purges = [line for line in at.stderr.splitlines() if PURGED in line]  # no conflicts: run-at doesn't say them
    heard.words = [line for line in at.stderr.splitlines() if line not in plain.stderr.splitlines() + heard.purges]
    heard.half = [line for line in at.stderr.splitlines() if OFF in line]


def run_at(library, since, run, heard):
    """Hands a run in as of an ident, and says whether it was answered as a run."""
    before = library.rows() if heard.words else None
    first = library.ended("run-at", "LYON", "9", "quick", since, reads=run)
    if first.stdout.startswith('{"compile"'):
        if heard.words:
            heard.wrong.append("run-at takes a run that try-at warns of")
        return first.stdout
    if before and library.rows() != before and not first.stdout.startswith('{"at"'):
        heard.wrong.append("run-at refuses a run and changes something")
    said = first.stderr.splitlines()
    if not heard.refusal and (not said or not set(said) <= set(heard.words + heard.half) or not set(heard.words) <= set(said)):
        heard.wrong.append(f"run-at says {first.stdout}{said}, and try-at {heard.words}")
    heard.words += [line for line in said if line not in heard.words]
    return ""


def repeated(library, since, run, reply, heard):
    """Hands an accepted run in again, as it was and otherwise, when a younger set has yanked it and SINCE is gone."""
    library.sent("PARIS", 8, "*IDENT AGAIN\n*YANK M\n")
    library.sent("PARIS", 9, f"*PURGE {since}\n")
    if library.ended("run-at", "LYON", "9", "quick", since, reads=run).stdout != reply:
        heard.wrong.append("a repeat by run-at gets another reply")
    other = library.ended("run-at", "LYON", "9", "quick", since, reads=f"{run}*/ ANOTHER\n")
    if other.returncode != 1 or "RunChanged" not in other.stdout + other.stderr:
        heard.wrong.append("run-at takes a number twice")


def made(library, since, text, heard):
    """Makes the run of LYON."""
    ended = library.ended("correct-at", "M", since, reads=text)
    heard.run, heard.refusal = ended.stdout, ended.stderr if ended.returncode else ""


def sent(library, since, heard):
    """Tries and sends the run of LYON, if there is one."""
    if heard.refusal or not heard.run:
        heard.text = None if heard.refusal else library.text()
        return
    tried(library, since, heard.run, heard)
    reply = run_at(library, since, heard.run, heard) if Shared.has_run_at else ""
    if heard.refusal:
        return
    if library.sent("LYON", 9, heard.run) != reply and reply:
        heard.wrong.append("run gets another reply than run-at gave")
    heard.text = library.text()
    if reply:
        repeated(library, since, heard.run, reply, heard)
