"""Edits that need several runs: `upd correct-parts` makes them, and one after the other is refused. `conflicts.py` calls this."""

import random
from pathlib import Path

from between import complaints, staying

WIDTH = 78


def unique(count, tag, width=WIDTH):
    """Lines that aren't anywhere else."""
    unique.last += count
    return [f"      {tag} {unique.last - at}".ljust(width, "=") for at in range(count)]


unique.last = 0


def long_edit(old, chance):
    """The lines of a deck after an edit of many lines, and what it is."""
    count = len(old)
    kind = chance.choice(["all", "block", "each second", "blocks", "gone and put", "move", "scattered"])
    if kind == "all":
        new = unique(int(count * chance.uniform(0.7, 1.6)), "NEW")
    elif kind == "block":
        at, size = chance.randint(0, count // 4), chance.randint(count // 2, 3 * count // 4)
        new = old[:at] + unique(int(size * chance.uniform(0.9, 2)) + 500, "NEW") + old[at + size:]
    elif kind == "each second":
        new = [unique(1, "NEW")[0] if at % 2 else line for at, line in enumerate(old)]
    elif kind == "blocks":
        new = list(old)
        for at in range(count - 100, 0, -chance.choice([150, 200, 300])):
            new[at:at + chance.randint(0, 100)] = unique(chance.randint(50, 250), "NEW")
    elif kind == "gone and put":
        cut = chance.randint(count // 3, 2 * count // 3)
        new = old[:cut // 4] + old[cut:] + unique(chance.randint(900, 1600), "NEW")
    elif kind == "move":
        size = chance.randint(count // 4, count // 3)
        new = unique(700, "NEW") + old[size:] + old[:size] + unique(100, "NEW")
    else:
        new = [part for line in old for part in chance.choice([[line], [], unique(1, "NEW"), unique(3, "NEW"), [line, *unique(1, "NEW")]])]
    return kind, new


def frames(spool):
    """The frames of a spool: of each its header's words, and its run."""
    result = []
    while spool:
        header, _, rest = spool.partition("\n")
        words = header.split(" ")
        result.append((words, rest[:int(words[4])]))
        spool = rest[int(words[4]) + 1:]
    return result


def add_deck(library, deck, lines, site):
    """Adds a deck in runs of 700 lines at most."""
    library.sent(site, 1, f"*DECK {deck}\n" + "".join(f"{line}\n" for line in lines[:700]))
    last = f"{deck}.{len(lines[:700]) + 1}"
    for number, at in enumerate(range(700, len(lines), 700), 2):
        part = lines[at:at + 700]
        library.sent(site, number, f"*IDENT {deck}{number}\n*INSERT {last}\n" + "".join(f"{line}\n" for line in part))
        last = f"{deck}{number}.{len(part)}"


def refused(library, at, words, by_name):
    """Lets the frame with these words be refused: its set's name is taken, or its number is."""
    if by_name:
        library.sent("PARIS", 1, f"*IDENT S{at}\n")
    else:
        library.sent(words[1], int(words[2]), "*/ TAKEN\n")


def texts_between(library, olds, news):
    """What is wrong with the texts of decks that should be between old and new ones."""
    wrong = []
    for deck, old, new in zip("AB", olds, news):
        first, *lines = library.said("text", deck).splitlines()
        wrong += [f"{deck}: {words}" for words in complaints(old, new, lines)]
        wrong += [] if first == f"*DECK {deck}" else [f"{deck}: another first line"]
    return wrong


def sent_with_a_refusal(library, spool, at, chance, olds, news):
    """Sends a spool whose frame `at`, counted from 1, is refused; 0 is none. Says what is wrong, and how many frames were accepted."""
    parts = frames(spool)
    by_name = chance.random() < 0.7
    if at:
        refused(library, at, parts[at - 1][0], by_name)
    answers = library.said("spool", reads=spool).splitlines()
    taken = [number for number, answer in enumerate(answers, 1) if answer.startswith('{"compile"') and not (number == at and not by_name)]
    wrong = texts_between(library, olds, news)
    now = [library.said("text", deck).splitlines()[1:] for deck in "AB"[:len(olds)]]
    if not at and now != news:
        wrong.append("after all frames the texts aren't the new ones")
    if at and taken:
        sets = ",".join(f"S{number}" for number in taken)
        library.sent("PARIS", 2, f"*IDENT BACK\n*YANK {sets}\n")
        if [library.said("text", deck).splitlines()[1:] for deck in "AB"[:len(olds)]] != olds:
            wrong.append(f"a yank of {sets} doesn't give the old text")
    return [f"frame {at} of {len(parts)} refused, accepted {taken}: {line}" if at else line for line in wrong]


def one_edit(library, folder, kind, olds, news, chance):
    """Makes the spool of an edit and sends it, with each frame refused in turn. Returns the number of parts, and what is wrong."""
    text = "".join(f"*DECK {deck}\n" + "".join(f"{line}\n" for line in lines) for deck, lines in zip("AB", news))
    spool = library.said("correct-parts", "S", "LYON", "1", "quick", reads=text)
    wrong = []
    count = len(frames(spool))
    for at in range(count + 1):
        copy = library.copied(f"{folder}/copy.db")
        wrong += [f"{kind}: {line}" for line in sent_with_a_refusal(copy, spool, at, chance, olds, news)]
        Path(copy.file).unlink()
    return count, wrong


def edits_in_parts(library_at, folder, given):
    """Makes the edits. Returns how many of them have a text that isn't between."""
    bad, cases, counts, number = 0, 0, [], 0
    while cases < given.parts:
        number += 1
        chance = random.Random(f"{given.seed} parts {number}")
        olds = [unique(chance.randint(500, 1400), "OLD") for _ in range(chance.choice([1, 1, 1, 2]))]
        kinds, news = zip(*(long_edit(old, chance) for old in olds))
        if any(staying(old, new) is None for old, new in zip(olds, news)):
            continue
        library = library_at(f"{folder}/parts.db")
        for deck, old in zip("AB", olds):
            add_deck(library, deck, old, f"BASE{deck}")
        count, wrong = one_edit(library, folder, ", ".join(kinds), olds, list(news), chance)
        Path(library.file).unlink()
        if count < 2:
            continue
        cases += 1
        counts.append(count)
        bad += bool(wrong)
        for line in wrong if given.show else wrong[:1]:
            print(f"parts {number}: {line}")
    print(f"{cases} edits in {sum(counts)} parts, {bad} of them with a text that isn't between" + ("  WRONG" if bad else ""))
    return bad


def long_case(library, folder, chance):
    """E6: 3,978 lines are replaced by 4,499, and the name of the second set is taken."""
    old, new = unique(3978, "OLD", 0), unique(4499, "NEW", 0)
    add_deck(library, "A", old, "BASE")
    count, wrong = one_edit(library, folder, "all lines", [old], [new], chance)
    print(f"E6   {'WRONG' if wrong else 'right'}  {count} parts for 4,499 lines, each refused in turn: {'; '.join(wrong) or 'the text is between'}")
    return bool(wrong)


def refusals(library):
    """What `correct-parts` refuses, and how. Returns how many of these it doesn't refuse, or in the words of another."""
    old, new = unique(900, "OLD"), unique(1900, "NEW")
    add_deck(library, "A", old, "BASE")
    text = "*DECK A\n" + "".join(f"{line}\n" for line in new)
    for number in (5, 7):
        library.sent("LYON", number, "*/ USED\n")
    library.sent("ROME", 5, "*/ SETTLED\n")
    library.said("settle", "ROME", "5")
    library.sent("PARIS", 1, "*IDENT N2\n*IDENT T1\n")
    tries = {"a number that is used": ("S", "LYON", "5"), "one that a later part would need": ("S", "LYON", "6"), "one that is settled": ("S", "ROME", "3"),
             "an empty set": ("", "LYON", "10"), "one too long": ("ABCDEFGHI", "LYON", "10"), "the second name taken": ("N", "LYON", "10"),
             "the first name taken": ("T", "LYON", "10"), "the last number passed": ("S", "LYON", "999999999")}
    bad, words = 0, {}
    for what, given in tries.items():
        ended = library.ended("correct-parts", *given, "quick", reads=text)
        said = ended.stderr.strip()
        good = ended.returncode == 1 and not ended.stdout and said and said not in words.values()
        words[what] = said
        bad += not good
        print(f"correct-parts, {what}: {'right' if good else 'WRONG'}, status {ended.returncode}, {said or 'no word'}")
    same = library.ended("correct-parts", "S", "LYON", "10", "quick", reads="*DECK A\n" + "".join(f"{line}\n" for line in old))
    if same.returncode or same.stdout:
        print("correct-parts, nothing differs: WRONG")
        bad += 1
    return bad


def parts_cases(library_at, folder, given):
    """Edits that need several runs. Returns how many aren't as wanted."""
    bad = long_case(library_at(f"{folder}/long.db"), folder, random.Random(given.seed))
    bad += refusals(library_at(f"{folder}/refusals.db"))
    return bad + edits_in_parts(library_at, folder, given)
