#!/usr/bin/env python3
"""Measures the runs that cost most on full libraries: insertions, deletes, restores, yanks, purges, `*PURDECK` and calls 8 deep.

    python3 bench/worst.py [--executable FILE] [--part P] [--only WORDS]

Each line of the table is one run of at most 65,536 bytes on a copy of its library, as a command and in a spool: the processor time of each, the spool's
without that of a spool with one insertion. A server spends what a spool does. --part says which part of the sizes to take (1 unless it is said; 0.1
is a tenth, for a quick look), --only which lines: those that have WORDS. The exit status is 1 where a run in a spool is past its budget.
"""

import argparse
import resource
import subprocess
import sys
import tempfile
from pathlib import Path

sys.dont_write_bytecode = True
from all import spooled, text, words_of  # noqa: E402
from needs import add_executable, there  # noqa: E402

LINES = 1_990
PLACES = 420
MOST = 2  # seconds of processor time that a run may take in a spool
CARD = "      CONTINUE"


def in_runs(blocks):
    """Runs of these blocks of lines, each whole in one run."""
    lines = []
    for block in blocks:
        if len(lines) + len(block) > LINES:
            yield text(lines)
            lines = []
        lines = lines + block
    yield text(lines)


def fields(word, names):
    """Lines of a directive with these fields, as many on each as there is room for."""
    line = word
    for name in names:
        if len(line) + len(name) + 1 > 80:
            yield line
            line = word
        line += ("," if line != word else " ") + name
    yield line


def grown(cards):
    """A deck of 1,990 cards, and sets that each put as many at its end."""
    yield text(["*DECK A"] + [CARD] * (min(cards, LINES) - 1))
    last = f"A.{min(cards, LINES)}"
    for n, first in enumerate(range(LINES, cards, LINES), 1):
        few = min(LINES, cards - first)
        yield text([f"*IDENT S{n}", f"*INSERT {last}"] + [CARD] * few)
        last = f"S{n}.{few}"


def card_of(place):
    """The card of such a deck at a place, the first at 1."""
    n, number = divmod(place - 1, LINES)
    return f"S{n}.{number + 1}" if n else f"A.{number + 1}"


def alternating(pairs):
    """For each pair a set of 665 cards at the end of the deck, and a set with one card behind each of these."""
    last = "A.2"
    for n in range(1, pairs + 1):
        lines = ["*DECK A", CARD] if n == 1 else []
        lines += [f"*IDENT Q{n}", f"*INSERT {last}"] + [CARD] * 665 + [f"*IDENT P{n}"]
        for card in range(1, 666):
            lines += [f"*INSERT Q{n}.{card}", "      NEW"]
        last = f"P{n}.665"
        yield text(lines)


def common(decks, cards):
    """Common decks of this many cards, and a deck."""
    yield text(["*DECK A", CARD])
    yield from in_runs([f"*COMDECK C{n}"] + [CARD] * (cards - 1) for n in range(1, decks + 1))


def sets(count, yanks):
    """A deck in which each set puts 12 cards, or 11 where it also yanks the set before it, with two entries more on each of the cards."""
    cards = 11 if yanks else 12
    yield text(["*DECK A", CARD, "*DECK B", CARD])

    def block(n):
        last = f"S{n - 1}.{cards}" if n > 1 else "A.2"
        return [f"*IDENT S{n}", f"*INSERT {last}"] + [CARD] * cards + ([f"*YANK S{n - 1}"] if yanks and n > 1 else [])

    yield from in_runs(block(n) for n in range(1, count + 1))
    for n, word in enumerate(["*DELETE", "*RESTORE"], 1):
        yield text([f"*IDENT X{n}", f"{word} A.2,S{count}.{cards}"])


def calling(depth, calls):
    """Common decks that each call the next one, the last with a card, and a deck that calls the first."""
    yield text([f"*COMDECK C{depth}", CARD])
    for n in range(depth - 1, 0, -1):
        yield text([f"*COMDECK C{n}"] + [f"*CALL C{n + 1}"] * calls)
    yield text(["*DECK A"] + ["*CALL C1"] * calls)


def insertions(cards, places):
    """A set with one card at each of these places, which are all over the deck."""
    lines = ["*IDENT W"]
    for n in range(places):
        lines += [f"*INSERT {card_of(1 + n * cards // places)}", "      NEW"]
    return text(lines)


def purge(names):
    return text(fields("*PURGE", names))


def made(upd, folder, name, runs):
    """A library in a file."""
    file = Path(folder) / name
    runs = list(runs)
    subprocess.run([upd, "init", file], check=True)
    replies = subprocess.run([upd, "spool", file], input=spooled(runs), capture_output=True, check=True).stdout
    assert replies.count(b'"state":"accepted"') == len(runs), replies[:2000]
    return file


def spent(upd, file, words, given, state):
    """Seconds of processor time of a command on a copy of a library, which answers the one run that it is given."""
    copy = file.with_name("copy.db")
    copy.write_bytes(file.read_bytes())
    Path(f"{copy}-wal").unlink(missing_ok=True)
    before = resource.getrusage(resource.RUSAGE_CHILDREN)
    replies = subprocess.run(words_of(upd, copy, words), input=given, capture_output=True).stdout
    after = resource.getrusage(resource.RUSAGE_CHILDREN)
    assert replies.count(b'"state":"%s"' % state) == 1, replies[:2000]
    return after.ru_utime + after.ru_stime - before.ru_utime - before.ru_stime


def measured(upd, file, run, mode, state):
    """Seconds of a run as a command, and in a spool beside a spool with the least run."""
    frame = b"RUN PARIS 1 %s %d\n%s\n"
    least = text(["*IDENT LEAST"])
    alone = spent(upd, file, ["run", "PARIS", "1", mode.decode()], run, state)
    beside = spent(upd, file, ["spool"], frame % (b"quick", len(least), least), b"accepted")
    return alone, spent(upd, file, ["spool"], frame % (mode, len(run), run), state) - beside


def cases(part):
    """Each library in words with its runs, and each run in words, itself, its mode and how it ends."""
    cards, pairs, count = int(39_800 * part), max(1, int(37 * part)), int(3_900 * part)
    decks, whole, yes = min(999, count), max(2 * LINES, int(49_999 * part)), b"accepted"
    many = insertions(cards, PLACES)
    ofs = [f"S{n}" for n in range(1, count + 1)]
    spread = text(["*IDENT W"] + [line for n in range(1, decks + 1) for line in (f"*INSERT C{n}.1", "      NEW")])
    one = text(["*SELPURGE " + ",".join(["A.S1"] * 14)] * 800)
    yield f"{cards:,} cards in one deck", grown(cards), [
        ("a card at 1 place", insertions(cards, 1), b"quick", yes),
        (f"cards at {PLACES} places", many, b"quick", yes),
    ]
    yield "the same with them", [*grown(cards), many], [("a purge of these", purge(["W"]), b"quick", yes)]
    yield f"{1330 * pairs + 2:,} cards, {pairs} pairs of sets that alternate", alternating(pairs), [
        (f"a purge of {pairs} sets, at {665 * pairs:,} places", purge(f"P{n}" for n in range(1, pairs + 1)), b"quick", yes)
    ]
    yield f"{whole:,} cards in one deck", grown(whole), [
        ("`*PURDECK` of the deck", text(["*PURDECK A"]), b"quick", yes),
        ("11,200 `*SELPURGE` of one pair", one, b"quick", yes),
        ("a delete of all cards", text(["*IDENT W", f"*DELETE A.2,{card_of(whole)}"]), b"quick", yes),
        ("all cards deleted and restored, and purged, 499 times", text(
            ["*IDENT W", f"*DELETE A.2,{card_of(whole)}", f"*RESTORE A.2,{card_of(whole)}", "*PURGE W"] * 499), b"quick", yes),
    ]
    yield f"{count:,} common decks of 12 cards", common(count, 12), [(f"a card in each of {decks} decks", spread, b"quick", yes)]
    yield "the same with them", [*common(count, 12), spread], [("a purge of these", purge(["W"]), b"quick", yes)]
    yield f"{count:,} sets of 12 cards in one deck, three entries each", sets(count, False), [
        ("a restore of all cards", text(["*IDENT W", f"*RESTORE A.2,{ofs[-1]}.12"]), b"quick", yes),
        ("a yank of each set", text(["*IDENT W", *fields("*YANK", ofs)]), b"quick", yes),
        ("a purge of each set", purge(ofs), b"quick", yes),
        ("a purge of 1,990 sets, a line each", text(f"*PURGE {name}" for name in ofs[:LINES]), b"quick", yes),
        ("`*SELPURGE` of each set", text(fields("*SELPURGE", (f"A.{name}" for name in ofs))), b"quick", yes),
    ]
    yield f"{count:,} sets of 11 cards, each yanks the one before", sets(count, True), [
        ("a yank of the last one", text(["*IDENT W", f"*YANK {ofs[-1]}"]), b"quick", yes),
        ("a purge of the last one", purge(ofs[-1:]), b"quick", yes),
        ("a purge of all", purge(ofs), b"quick", yes),
    ]
    empty = list(in_runs([f"*IDENT {name}"] for name in ofs))
    all25 = text(["*IDENT W"] + [f"*YANK {ofs[0]}.{ofs[-1]}"] * 25)
    yield f"{count:,} sets without cards", empty, [("a yank of all, 25 times", all25, b"quick", yes)]
    yield "the same with it", [*empty, all25], [("a purge of these yanks", purge(["W"]), b"quick", yes)]
    yield "calls 8 deep, 20 in each deck", calling(8, 20), [("a full run", text(["*IDENT W"]), b"full", b"refused")]


def main():
    words = argparse.ArgumentParser(description=__doc__.splitlines()[0])
    add_executable(words)
    words.add_argument("--part", type=float, default=1, metavar="P", help="the part of the sizes (default: 1)")
    words.add_argument("--only", default="", metavar="WORDS", help="the lines that have these words")
    given = words.parse_args()
    upd, past = there(given.executable), False
    print("| Library | Run | Command | In a spool |\n|---|---|---|---|")
    with tempfile.TemporaryDirectory() as folder:
        for number, (library, runs, asked) in enumerate(cases(given.part)):
            asked = [case for case in asked if given.only in f"{library}: {case[0]}"]
            file = made(upd, folder, f"{number}.db", runs) if asked else None
            for what, run, mode, state in asked:
                alone, more = measured(upd, file, run, mode, state)
                past = past or more > MOST
                late = f", past {MOST} s" if more > MOST else ""
                print(f"| {library} | {what} | {alone:.2f} s | {more:.2f} s{late} |", flush=True)
    sys.exit(past)


if __name__ == "__main__":
    main()
