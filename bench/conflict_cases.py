"""Cases of two sites that edit the deck A of L1 .. L10, which are the cards A.2 .. A.11. `conflicts.py` plays them.

LYON takes the text when `since` is the youngest ident, and edits it. Meanwhile the runs of PARIS arrive. Then LYON's run is made, tried and sent.
"""

import subprocess
import sys
from collections import namedtuple
from pathlib import Path

from needs import ROOT
from shared import Heard, Shared, made, sent

DECK = "*DECK A\nL1\nL2\nL3\nL4\nL5\nL6\nL7\nL8\nL9\nL10\n"
ADDED = "*IDENT X\n*INSERT A.11\nX1\n"
CHANGED = "*IDENT X\n*DELETE A.4\nX1\n"
GONE = "*IDENT X\n*DELETE A.5\n"

# before: runs before the text is taken; theirs: runs since; mine: the edited text of A; early: my run is made before theirs arrive; merged: the text where
# nothing meets, None where a word is wanted.
Case = namedtuple("Case", "name says before since theirs mine merged early", defaults=(None, False))

CASES = [
    Case("E1", "they insert into the range of a run that was made before", [], "A", ["*IDENT P\n*INSERT A.4\nTHEIRS\n"],
         "L1 N2 N3 N4 L5 L6 L7 L8 L9 L10", early=True),
    Case("E2a", "they delete L3; I move L2 L3 L4", [], "A", ["*IDENT P\n*DELETE A.4\n"], "L1 L5 L6 L7 L8 L9 L10 L2 L3 L4"),
    Case("E2b", "they delete L3; I rewrite L2 L3 L4", [], "A", ["*IDENT P\n*DELETE A.4\n"], "L1 N2 N3 N4 L5 L6 L7 L8 L9 L10"),
    Case("E2c", "they change L3; I move L2 L3 L4", [], "A", ["*IDENT P\n*DELETE A.4\nTHEIRS\n"], "L1 L5 L6 L7 L8 L9 L10 L2 L3 L4"),
    Case("E3", "they put a line into L2 .. L5; I delete these", [], "A", ["*IDENT P\n*INSERT A.4\nTHEIRS\n"], "L1 L6 L7 L8 L9 L10"),
    Case("E4", "they delete L2 .. L5; I put a line into these", [], "A", ["*IDENT P\n*DELETE A.3,A.6\n"], "L1 L2 L3 MINE L4 L5 L6 L7 L8 L9 L10"),
    Case("E5a", "they yank X; I change a line of X", [ADDED], "X", ["*IDENT P\n*YANK X\n"], "L1 L2 L3 L4 L5 L6 L7 L8 L9 L10 MINE"),
    Case("E5b", "they yank the deck; I change L3", [], "A", ["*IDENT P\n*YANKDECK A\n"], "L1 L2 MINE L4 L5 L6 L7 L8 L9 L10"),
    Case("E8", "they purge X, my ident, and make another X; I change L8", [ADDED], "X",
         ["*PURGE X\n", "*IDENT P\n*INSERT A.3\nTHEIRS\n", "*IDENT X\n*INSERT A.6\nTHEIRS TOO\n"], "L1 L2 L3 L4 L5 L6 L7 MINE L9 L10 X1"),
    Case("E9", "they purge X in the deck; I change L8", [CHANGED], "X", ["*SELPURGE A.X\n"], "L1 L2 X1 L4 L5 L6 L7 MINE L9 L10"),
    # the same kinds, at their edges
    Case("F1", "both append at the end", [], "A", ["*IDENT P\n*INSERT A.11\nTHEIRS\n"], "L1 L2 L3 L4 L5 L6 L7 L8 L9 L10 MINE"),
    Case("F2", "both insert at the front", [], "A", ["*IDENT P\n*INSERT A.1\nTHEIRS\n"], "MINE L1 L2 L3 L4 L5 L6 L7 L8 L9 L10"),
    Case("F3", "they change L4; I change L5", [], "A", ["*IDENT P\n*DELETE A.5\nTHEIRS\n"], "L1 L2 L3 L4 MINE L6 L7 L8 L9 L10"),
    Case("F4", "the same, with an inactive card between L3 and L5", [GONE], "X", ["*IDENT P\n*DELETE A.4\nTHEIRS\n"], "L1 L2 L3 MINE L6 L7 L8 L9 L10"),
    Case("F5", "they delete L3; I insert behind the inactive card after it", [GONE], "X", ["*IDENT P\n*DELETE A.4\n"], "L1 L2 L3 MINE L5 L6 L7 L8 L9 L10"),
    Case("F6", "they restore L4; I rewrite L3 and L5", [GONE], "X", ["*IDENT P\n*RESTORE A.5\n"], "L1 L2 N3 N5 L6 L7 L8 L9 L10"),
    Case("F7", "they yank X, so L4 comes back; I rewrite L3 and L5", [GONE], "X", ["*IDENT P\n*YANK X\n"], "L1 L2 N3 N5 L6 L7 L8 L9 L10"),
    Case("F8", "they yank X; I insert behind the line of X", [ADDED], "X", ["*IDENT P\n*YANK X\n"], "L1 L2 L3 L4 L5 L6 L7 L8 L9 L10 X1 MINE"),
    Case("F9", "they yank X in the deck; I change its line", [CHANGED], "X", ["*IDENT P\n*SELYANK A.X\n"], "L1 L2 MINE L4 L5 L6 L7 L8 L9 L10"),
    Case("F10", "they purge X; I change its line", [CHANGED, "*IDENT Z\n"], "Z", ["*PURGE X\n"], "L1 L2 MINE L4 L5 L6 L7 L8 L9 L10"),
    Case("F11", "they purge the deck; I change L3", ["*IDENT Z\n"], "Z", ["*PURDECK A\n"], "L1 L2 MINE L4 L5 L6 L7 L8 L9 L10"),
    Case("F12", "they purge the deck and bring it again, changed", ["*IDENT Z\n"], "Z", ["*PURDECK A\n", DECK.replace("L3", "THEIRS")],
         "L1 L2 L3 L4 L5 L6 L7 MINE L9 L10"),
    Case("F13", "they purge my ident; I change L8", [ADDED], "X", ["*PURGE X\n"], "L1 L2 L3 L4 L5 L6 L7 MINE L9 L10 X1"),
    Case("F14", "they yank a yank, so X goes; I change its line", [CHANGED, "*IDENT Y\n*YANK X\n", "*IDENT Z\n*YANK Y\n"], "Z", ["*IDENT P\n*DELETE Z.1\n"],
         "L1 L2 MINE L4 L5 L6 L7 L8 L9 L10"),
    # what meets nothing
    Case("G1", "they change L9; I change L2", [], "A", ["*IDENT P\n*DELETE A.10\nTHEIRS\n"], "L1 MINE L3 L4 L5 L6 L7 L8 L9 L10",
         "L1 MINE L3 L4 L5 L6 L7 L8 THEIRS L10"),
    Case("G2", "they append; I insert at the front", [], "A", ["*IDENT P\n*INSERT A.11\nTHEIRS\n"], "MINE L1 L2 L3 L4 L5 L6 L7 L8 L9 L10",
         "MINE L1 L2 L3 L4 L5 L6 L7 L8 L9 L10 THEIRS"),
    Case("G3", "they yank X; I change L3", [ADDED], "X", ["*IDENT P\n*YANK X\n"], "L1 L2 MINE L4 L5 L6 L7 L8 L9 L10 X1", "L1 L2 MINE L4 L5 L6 L7 L8 L9 L10"),
    Case("G4", "they do nothing; I move, change and delete", [CHANGED], "X", [], "L1 X1 L4 MINE L6 L9 L10 L2", "L1 X1 L4 MINE L6 L9 L10 L2"),
    Case("G5", "they add another deck", [], "A", ["*DECK B\nTHEIRS\n"], "L1 MINE L3 L4 L5 L6 L7 L8 L9 L10 LAST", "L1 MINE L3 L4 L5 L6 L7 L8 L9 L10 LAST"),
]


def played(library, case):
    """What LYON hears in a case."""
    library.sent("LYON", 1, DECK)
    for number, run in enumerate(case.before, 2):
        library.sent("LYON", number, run)
    heard = Heard()
    mine = "*DECK A\n" + "".join(f"{line}\n" for line in case.mine.split())
    if case.early:
        made(library, case.since, mine, heard)
    for number, run in enumerate(case.theirs, 1):
        library.sent("PARIS", number, run)
    if not case.early:
        made(library, case.since, mine, heard)
    sent(library, case.since, heard)
    return heard


def fixed_cases(upd, folder, show):
    """Plays the cases. Returns how many aren't as wanted."""
    bad = 0
    for number, case in enumerate(CASES):
        heard = played(Shared(upd, f"{folder}/case{number}.db"), case)
        if case.merged is None:
            good = heard.has_word()
        else:
            good = not heard.has_word() and heard.text == "*DECK A\n" + "".join(f"{line}\n" for line in case.merged.split())
        good = good and not heard.wrong
        bad += not good
        said = [heard.refusal.strip()] if heard.refusal else heard.purges + heard.words + heard.half
        print(f"{case.name:4} {'right' if good else 'WRONG'}  {case.says}: {'; '.join(heard.wrong + said) or 'no word'}")
        if show and not good:
            print(f"{heard.run}gives\n{heard.text}")
    return bad + edit_script(upd, folder) + full_cases(upd, folder)


def edit_script(upd, folder):
    """E1 by edit.sh: a run of PARIS comes between the question and the answer. Whether its line stays."""
    library = Shared(upd, f"{folder}/script.db")
    library.sent("LYON", 1, DECK)
    editor = Path(folder) / "editor"
    editor.write_text('#!/bin/sh\nsed -i -e s/^L2/N2/ -e s/^L3/N3/ -e s/^L4/N4/ "$1"\n', encoding="ascii")
    editor.chmod(0o700)
    asked = subprocess.Popen([ROOT / "examples/edit.sh", library.file, "LYON", "A"], env={"PATH": "/usr/bin:/bin", "UPD": upd, "EDITOR": str(editor)},
                             stdin=subprocess.PIPE, stdout=subprocess.PIPE, stderr=subprocess.PIPE, bufsize=0)
    question = b""
    while not question.endswith(b"no: "):
        byte = asked.stderr.read(1)
        if not byte:
            sys.exit(f"edit.sh ends before it asks: {question!r}")
        question += byte
    library.sent("PARIS", 1, "*IDENT P\n*INSERT A.4\nTHEIRS\n")
    asked.communicate(b"yes\n")
    good = "THEIRS" in library.text()
    print(f"E1   {'right' if good else 'WRONG'}  by edit.sh: THEIRS {'stays' if good else 'is gone'}, status {asked.returncode}")
    return not good


def nearly_full():
    """Libraries that have room for an edit, and hardly more: what they are full of, and the runs that make them."""
    sets = [f"S{number}" for number in range(4094)]
    idents = ["".join(f"*IDENT {name}\n" for name in sets[at:at + 1500]) for at in range(0, 4094, 1500)]
    yield "4,095 idents", idents
    yield "49,999 cards", [f"*DECK B{number}\n" + "LINE\n" * (1998 if number < 25 else 12) for number in range(26)]
    yield "99,000 targets", [*idents, "*PURGE S4000.S4093\n", "*IDENT Y\n" + "*YANK S0.S3999\n" * 24 + "*YANK S0.S2999\n"]


def full_cases(upd, folder):
    """E7: edits beside what hardly leaves room. Returns how many aren't made and taken."""
    bad = 0
    for number, (what, runs) in enumerate(nearly_full()):
        library = Shared(upd, f"{folder}/full{number}.db")
        for at, run in enumerate([DECK, *runs], 1):
            library.sent("LYON", at, run)
        text = DECK.replace("L8", "MINE")
        ended = library.ended("correct-at", "M", "A", reads=text)
        good = ended.returncode == 0 and library.sent("LYON", 99, ended.stdout) != "" and library.text() == text
        bad += not good
        print(f"E7   {'right' if good else 'WRONG'}  an edit beside {what}: {ended.stderr.strip() or 'made'}")
    return bad
