#!/usr/bin/env python3
"""Edits a deck from two sites at once: where one undoes or loses what the other did, somebody must be warned.

    python3 bench/conflicts.py [--executable FILE] [--count N] [--parts N] [--seed N] [--show]

PARIS has sent its runs when the run of LYON is made by `upd correct-at`, as of the ident that was the youngest when LYON took the text. `upd try-at` warns, and
`upd run-at`, where the executable has it, refuses. A word is a line that `try-at` writes and `try` doesn't, or a refusal; one that says `is off already, by`
a younger set counts as half a word.

1. The cases of conflict_cases.py have a word where they should, and none where nothing meets.
2. Edits at random (400 unless --count says otherwise) beside `git merge-file`, and a quarter as many each where LYON's run was made before PARIS sent, where
   PARIS yanks, and where it purges. Each conflict of git has a word, and so has each edit that touches or adjoins what PARIS changed. A merge of git gives
   the same text, or has a word: where a block could have gone down as well as its neighbour up, git may take the one and `upd` the other. At most a tenth
   of git's merges have a word, but where PARIS purges.
3. Edits that need several runs (60 unless --parts says otherwise), by `upd correct-parts`. In turn each frame is refused, and the text is between the old and
   the new one by between.py; a yank of the accepted sets gives the old one.

With --show each case that isn't as wanted is shown with its texts and runs. The exit status is 1 where there is one.
"""

import argparse
import random
import subprocess
import sys
import tempfile
from pathlib import Path

sys.dont_write_bytecode = True
from conflict_cases import fixed_cases  # noqa: E402
from needs import add_executable, there, tools  # noqa: E402
from parts import parts_cases  # noqa: E402
from shared import Heard, Shared, made, sent  # noqa: E402

COLUMNS = ["conflicts", "no word", "nor half", "touch", "silent", "merges", "same", "other", "refused", "warned", "wrong"]
COMMON = ["", "      END", "C", "      X = X + 1"]


def some_lines(count, tag, chance, alike):
    """Lines that no other edit has, or some that are alike."""
    return [chance.choice(COMMON) if chance.random() < alike else f"      {tag}({chance.randrange(10**9)})" for _ in range(count)]


def edited(lines, tag, chance, alike):
    """The lines of a deck behind its first, after one to three edits."""
    lines = list(lines)
    for _ in range(chance.choice([1, 1, 2, 3])):
        kind = chance.choice(["change", "delete", "insert", "move", "rewrite", "append", "front"])
        count = chance.randint(2, 6) if kind in ("move", "rewrite") else chance.choice([1, 1, 2, 3])
        at = {"append": len(lines), "front": 0}.get(kind, chance.randint(0, max(0, len(lines) - count)))
        if kind == "move":
            block = lines[at:at + count]
            del lines[at:at + count]
            at = chance.randint(0, len(lines))
            lines[at:at] = block
        else:
            gone = count if kind in ("change", "delete", "rewrite") else 0
            lines[at:at + gone] = some_lines(chance.randint(1, 6) if kind == "rewrite" else count, tag, chance, alike / 2) if kind != "delete" else []
    return lines


def grown(library, chance):
    """A deck of 10 to 60 lines with up to three sets. Returns its sets, and how many of the lines are alike."""
    alike = chance.choice([0, 0, 0.4])
    lines = some_lines(chance.randint(10, 60), "BASE", chance, alike)
    library.sent("BASE", 1, "*DECK A\n" + "".join(f"{line}\n" for line in lines))
    sets = []
    for name in ["X", "Y", "Z"][:chance.randint(0, 3)]:
        run = library.said("correct", name, reads="*DECK A\n" + "".join(f"{line}\n" for line in edited(library.text().splitlines()[1:], name, chance, alike)))
        if run:
            library.sent("BASE", len(sets) + 2, run)
            sets.append(name)
    return sets, alike


def corrected(library, since, base, chance, alike):
    """Runs of PARIS that edit the deck: one or two by its text, or one by hand."""
    off = [name for name, active in library.listed().items() if not active]
    if off and chance.random() < 0.2:
        library.sent("PARIS", 1, f"*IDENT P\n*RESTORE {chance.choice(off)}\n")
        return
    for number, name in enumerate(["P", "Q"][:chance.choice([1, 1, 1, 2])], 1):
        lines = edited(base[1:], name, chance, alike)
        text = f"{base[0]}\n" + "".join(f"{line}\n" for line in lines)
        run = library.said(*(["correct", name] if number == 2 or chance.random() < 0.5 else ["correct-at", name, since]), reads=text)
        if run:
            library.sent("PARIS", number, run)
        base = text.splitlines()


def yanked(library, sets, chance):
    """A run of PARIS that yanks a set, in all decks or in this one, or a range of sets, or the deck."""
    one = chance.choice(sets or ["A"])
    lines = ["*YANKDECK A"] if chance.random() < 0.1 or not sets else [f"*YANK {one}", f"*YANK {one}.{sets[-1]}", f"*SELYANK A.{one}"]
    library.sent("PARIS", 1, f"*IDENT P\n{chance.choice(lines)}\n")


def purged(library, sets, chance, alike):
    """Runs of PARIS that purge a set or the deck; some bring the name again, or purge what PARIS itself had put in."""
    kind = chance.choice(["set", "set", "deck set", "again", "back", "own", "deck", "deck again"]) if sets else "own"
    one = chance.choice(sets or ["A"])
    if kind == "own":
        corrected(library, one, library.text().splitlines(), chance, alike)
    runs = {"set": [f"*PURGE {one}\n"], "deck set": [f"*SELPURGE A.{one}\n"], "back": [f"*PURGE {one},*\n"],
            "again": [f"*PURGE {one}\n", f"*IDENT {one}\n*INSERT A.2\nTHEIRS\n"], "deck": ["*PURDECK A\n"],
            "deck again": ["*PURDECK A\n", "*DECK A\nTHEIRS\n"],
            "own": ["*PURGE P\n"] if " P set held\n" in library.said("idents") else []}[kind]
    for number, run in enumerate(runs, 4):
        library.sent("PARIS", number, run)


def touches(run, before, after):
    """Whether a run touches or adjoins cards whose status differs: by the cards of the deck when the text was taken, and those when the run comes."""
    names = list(after)
    for behind, name in zip([None, *before], before):
        if name not in after:
            names.insert(names.index(behind) + 1 if behind else 0, name)
    changed = {name for name in names if before.get(name, False) != after.get(name, False)}
    seen = {name for name in names if before.get(name) or after.get(name)}
    for line in run.splitlines():
        word, _, field = line.partition(" ")
        ends = field.split()[0].split(",") if word in ("*DELETE", "*RESTORE", "*INSERT", "*BEFORE") else []
        if not ends or any(end not in after for end in ends):
            continue
        first, last = names.index(ends[0]), names.index(ends[-1])
        meets = set(names[first:last + 1]) if word in ("*DELETE", "*RESTORE") else set()
        at_most, at_least = (first - 1, first) if word == "*BEFORE" else (first if word == "*INSERT" else first - 1, last + 1)
        meets |= set([name for name in names[:at_most + 1] if name in seen][-1:]) | set([name for name in names[at_least:] if name in seen][:1])
        if meets & changed:
            return True
    return False


def merged(folder, mine, base, theirs):
    """The text that git merges, None where it says conflict."""
    for name, text in (("mine", mine), ("base", base), ("theirs", theirs)):
        Path(f"{folder}/{name}").write_text(text, encoding="ascii")
    ended = subprocess.run(["git", "merge-file", "-p", "mine", "base", "theirs"], cwd=folder, capture_output=True, text=True, check=False)
    if not 0 <= ended.returncode < 128:
        sys.exit(f"git merge-file: {ended.stderr}")
    return None if ended.returncode else ended.stdout


def edit_of_two(upd, folder, kind, chance):
    """One edit at random: what LYON hears, what git merges, whether the run touches what PARIS changed, and the texts."""
    library = Shared(upd, f"{folder}/two.db")
    sets, alike = grown(library, chance)
    since, base, before = (sets or ["A"])[-1], library.text(), library.listed()
    mine = "*DECK A\n" + "".join(f"{line}\n" for line in edited(base.splitlines()[1:], "MINE", chance, alike))
    heard = Heard()
    if kind == "made before":
        made(library, since, mine, heard)
    if kind == "yanks":
        yanked(library, sets, chance)
    elif kind == "purges":
        purged(library, sets, chance, alike)
    else:
        corrected(library, since, base.splitlines(), chance, alike)
    theirs, after = library.text(), library.listed()
    if kind != "made before":
        made(library, since, mine, heard)
    sent(library, since, heard)
    Path(library.file).unlink()
    return heard, merged(folder, mine, base, theirs), touches(heard.run, before, after), (base, theirs, mine)


def shown(name, heard, texts):
    """Shows a case that isn't as wanted."""
    for title, text in zip(("BASE", "THEIRS", "MINE", "RUN", "TEXT"), (*texts, heard.run, heard.text)):
        print(f"--- {name}: {title}\n{text}", end="" if text else "\n")
    print(f"--- {name}: heard {heard.refusal.strip()} {heard.purges} {heard.words} {heard.half}")


class Count:
    """The table's row of a kind of edits."""

    def __init__(self, kind):
        self.kind, self.row = kind, dict.fromkeys(COLUMNS, 0)

    def add(self, heard, merge, touch):
        """Adds a case. Returns whether it is as wanted, a warning too many aside."""
        row, word = self.row, heard.has_word()
        found = [("conflicts", merge is None), ("no word", merge is None and not word), ("nor half", merge is None and not word and not heard.half),
                 ("touch", touch), ("silent", touch and not word), ("merges", merge is not None), ("wrong", bool(heard.wrong)),
                 ("refused", merge is not None and bool(heard.refusal)), ("same", merge is not None and heard.text == merge),
                 ("other", merge is not None and heard.text != merge and not word),
                 ("warned", merge is not None and word)]
        for key, holds in found:
            row[key] += holds
        return not any(holds for key, holds in found if key in ("no word", "silent", "wrong", "other"))

    def is_wanted(self):
        row = self.row
        few = self.kind == "purges" or 10 * row["warned"] <= row["merges"]
        return few and not any(row[key] for key in ("no word", "silent", "wrong", "other"))


def random_cases(upd, folder, given):
    """Makes edits at random, and prints the table. Returns how many kinds of edits aren't as wanted."""
    counts = []
    for kind, count in [("edits", given.count), ("made before", given.count // 4), ("yanks", given.count // 4), ("purges", given.count // 4)]:
        counts.append(Count(kind))
        for number in range(1, count + 1):
            heard, merge, touch, texts = edit_of_two(upd, folder, kind, random.Random(f"{given.seed} {kind} {number}"))
            if not counts[-1].add(heard, merge, touch) or heard.wrong:
                for line in heard.wrong:
                    print(f"{kind} {number}: {line}")
                if given.show:
                    shown(f"{kind} {number}", heard, texts)
    print(f"\n{'':12}" + "".join(f"{key:>10}" for key in counts[0].row))
    for count in counts:
        print(f"{count.kind:12}" + "".join(f"{number:10}" for number in count.row.values()) + ("" if count.is_wanted() else "  WRONG"))
    return sum(not count.is_wanted() for count in counts)


def main():
    words = argparse.ArgumentParser(description=__doc__.splitlines()[0])
    add_executable(words)
    words.add_argument("--count", metavar="N", type=int, default=400, help="how many edits of two sites are made (default: 400)")
    words.add_argument("--parts", metavar="N", type=int, default=60, help="how many edits that need several runs are made (default: 60)")
    words.add_argument("--seed", metavar="N", type=int, default=1, help="what the random numbers begin with (default: 1)")
    words.add_argument("--show", action="store_true", help="show what isn't as wanted")
    given = words.parse_args()
    tools("git")
    upd = there(given.executable)
    Shared.has_run_at = subprocess.run([upd, "run-at", "--help"], capture_output=True, check=False).returncode == 0
    with tempfile.TemporaryDirectory(dir="/dev/shm" if Path("/dev/shm").is_dir() else None) as folder:
        bad = fixed_cases(upd, folder, given.show)
        bad += random_cases(upd, folder, given)
        bad += parts_cases(lambda file: Shared(upd, file), folder, given)
    print(f"\n{bad} not as wanted" + ("" if Shared.has_run_at else "; the executable has no run-at"))
    sys.exit(bool(bad))


if __name__ == "__main__":
    main()
