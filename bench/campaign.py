#!/usr/bin/env python3
"""Treats the lasting executable badly: mutated requests and spools, kills in the middle of a spool and of a backup, and very many frames.

    python3 bench/campaign.py [--executable FILE] [--seed N] [--requests N] [--spools N] [--kills N] [--backups N] [--frames N]

Each answer has to be one of those that docs/protocol.md defines, and what was answered has to be there afterwards. The exit status is 1 where it isn't.
"""

import argparse
import json
import random
import re
import subprocess
import sys
import tempfile
import threading
import time
from pathlib import Path

sys.dont_write_bytecode = True
import wire  # noqa: E402
from needs import add_executable, there, tools  # noqa: E402
from wire import Server, exchange  # noqa: E402

FAULTS = {
    1: "RunLong", 2: "TooManyLines", 3: "BadByte", 4: "LineLong", 5: "BadName", 6: "BadCard", 7: "BadField", 8: "NoIdent", 9: "TextNowhere",
    10: "NameTaken", 11: "IdentUnknown", 12: "DeckUnknown", 13: "CardUnknown", 14: "RangeOrder", 15: "DeckCard", 16: "YankText", 17: "YankSelf",
    18: "Reserved", 19: "Full", 20: "CallUnknown", 21: "CallDepth", 22: "CompileLong", 23: "BadSite", 24: "BadNumber", 25: "BadMode",
    26: "RunChanged", 27: "Settled", 28: "NoMemory", 29: "Store", 30: "BadFrame", 31: "CutFrame", 32: "Read", 33: "Write",
}
STATUSES = {200, 400, 404, 405, 409, 410, 413, 422}
RUNS = [
    b"*DECK A\nONE\nTWO\nTHREE\n", b"*IDENT X\n*DELETE A.2\nNEW\n", b"*IDENT Y\n*YANK X\n", b"*IDENT Z\n*YANK Y\n*INSERT A.3,\n", b"*PURGE Z\n",
    b"*COMDECK C,NOPROP\nCEE\n*DECK B\n*CALL C\n", b"*IDENT W\n*RESTORE A.2,A.4\n*SELYANK A.X\n*YANKDECK B\n*COMPILE A.B\n",
]
REQUESTS = [
    b"POST /sites/LYON/runs/%d/quick HTTP/1.1\r\nHost: lib\r\nContent-Length: %d\r\n\r\n%s", b"GET /idents HTTP/1.1\r\nHost: lib\r\n\r\n",
    b"GET /decks/A HTTP/1.0\r\n\r\n", b"GET /cards/A/2 HTTP/1.1\r\nAccept: */*\r\n\r\n", b"GET /yanks HTTP/1.1\r\n\r\n",
    b"POST /sites/PARIS/settled/%d HTTP/1.1\r\nContent-Length: 0\r\n\r\n", b"GET /compile HTTP/1.1\r\n\r\n",
]


def is_answer(text):
    """Whether a text is a reply, the text of a fault, or of a mark."""
    try:
        said = json.loads(text)
    except ValueError:
        return False
    if said.get("state") == "accepted":
        return sorted(said) == ["compile", "idents", "lines", "mode", "run", "site", "state"]
    if "settled" in said:
        return sorted(said) == ["settled", "site"]
    return FAULTS.get(said.get("fault")) == said.get("name") and set(said) - {"mode", "run", "site", "state"} == {"at", "fault", "name"}


def mutated(dice, text):
    text = bytearray(text)
    for _ in range(dice.choice([0, 1, 1, 1, 2, 3, 8])):
        at = dice.randrange(len(text) + 1)
        to = min(len(text), at + dice.choice([1, 1, 1, 4, 20]))
        piece = bytes(dice.choice([dice.randrange(256), *b"\r\n 0/*,.%:Z"]) for _ in range(dice.choice([0, 1, 1, 2])))
        text[at:to if dice.random() < 0.6 else at] = dice.choice([piece, piece, bytes(text[at:to]) * 2])
    return bytes(text)


def request(dice):
    """A request, and whether it is whole, so that it has to be answered."""
    text = dice.choice(REQUESTS)
    if b"%s" in text:
        run = mutated(dice, dice.choice(RUNS))
        text = text % (dice.randrange(1, 4000), len(run), run)
    elif b"%d" in text:
        text = text % dice.randrange(1, 9)
    sent = mutated(dice, text)
    return sent, sent == text


def judged(answer):
    """The status of an answer over HTTP, and whether it is one that is defined."""
    head, _, body = answer.partition(b"\r\n\r\n")
    found = re.fullmatch(rb"HTTP/1\.1 ([0-9]+) .*\r\nContent-Length: ([0-9]+)\r\n.*", head, re.DOTALL)
    if not found:
        return "no head", False
    status, length = int(found[1]), int(found[2])
    return status, status in STATUSES and length == len(body) and (b"text/plain" in head or is_answer(body))


def field(word):
    """A field of the log of connections."""
    return "".join(chr(byte) if 0x20 < byte < 0x7F else f"%{byte:02X}" for byte in word)[:200] or "-"


def outcome(status, got):
    """What the log says of an answer."""
    body = got.partition(b"\r\n\r\n")[2]
    if status == 200:
        return "accepted" if body.endswith(b'"state":"accepted"}') else "ok"
    return json.loads(body)["name"]


def is_logged(line, sent, got):
    """Whether a line of the log says of a request what it asked and what it got."""
    _, method, target, site, number, status, what, read, written, _ = line.split(" ")
    right = int(written) == len(got) and int(read) <= len(sent)
    if not got:
        return right and status == "-" and what in FAULTS.values()
    right = right and int(status) == judged(got)[0] and what == outcome(int(status), got)
    if int(status) in (400, 413):
        return right
    words = sent.split(b" ")[:2]
    asked = re.fullmatch(r"/sites/([A-Z0-9]+)/(?:runs/([0-9]+)/\w+|settled/([0-9]+))", target)
    named = (asked[1], asked[2] or asked[3]) if asked and method == "POST" and int(status) in (200, 409, 410, 422) else (site, number)
    return right and (method.lower(), target.lower()) == tuple(field(word).lower() for word in words) and (site, number) == named


def try_requests(upd, folder, dice, count):
    file = folder / "requests.db"
    subprocess.run([upd, "init", file], check=True)
    found, bad, all_sent = {}, 0, []
    with Server(upd, file, count) as server:
        for _ in range(count):
            sent, whole = request(dice)
            got = exchange(sent)
            all_sent.append((sent, got))
            status, right = judged(got) if got else ("none", not whole)
            found[status] = found.get(status, 0) + 1
            if not right:
                bad += 1
                print("BAD", sent, got)
    lines = [line for line in server.log.read_text().splitlines() if " listening " not in line]
    untold = [said for said in zip(lines, all_sent, strict=True) if not is_logged(said[0], *said[1])]
    bad += len(untold)
    print(f"{count} mutated requests: {dict(sorted(found.items(), key=str))}, {len(untold)} of them logged wrongly", *untold[:3])
    if count >= 50 and 200 not in found:
        bad += 1
        print("BAD no request was answered with 200")
    return bad + sound(upd, file)


def sound(upd, file):
    """Whether a library still opens and lists, and SQLite finds nothing wrong with it; 1 where not."""
    listed = subprocess.run([upd, "idents", file], capture_output=True, check=False)
    checked = subprocess.run(["sqlite3", file, "PRAGMA integrity_check"], capture_output=True, check=False)
    right = listed.returncode == 0 and checked.stdout == b"ok\n"
    if not right:
        print("BAD library", file, listed, checked)
    return int(not right)


def frames(dice, count, numbers):
    text = b""
    for _ in range(count):
        run = mutated(dice, dice.choice(RUNS))
        mode = dice.choice([b"full", b"quick", b"normal"])
        text += b"RUN %s %d %s %d\n%s\n" % (dice.choice([b"LYON", b"PARIS"]), dice.choice(numbers), mode, len(run), run)
    return text


def try_spools(upd, folder, dice, count):
    file = folder / "spools.db"
    subprocess.run([upd, "init", file], check=True)
    found, bad = {}, 0
    for _ in range(count):
        text = mutated(dice, frames(dice, dice.randrange(1, 4), range(1, 3 * count)))
        done = subprocess.run([upd, "spool", file], input=text, capture_output=True, check=False)
        fault = re.fullmatch(rb"upd: ([A-Za-z]+) \(([0-9]+)\) at [0-9]+\n", done.stderr)
        lines = done.stdout.splitlines()
        right = all(map(is_answer, lines)) and (done.returncode == 0) == (done.stderr == b"")
        if done.returncode:
            right = right and done.returncode == 1 and fault and FAULTS[int(fault[2])] == fault[1].decode() and int(fault[2]) in (30, 31)
        found[done.returncode] = found.get(done.returncode, 0) + 1
        if not right:
            bad += 1
            print("BAD", text, done)
    print(f"{count} mutated spools, by exit status: {found}")
    return bad + sound(upd, file)


def try_kills(upd, folder, dice, count):
    text = frames(dice, 1000, range(1, 700))
    calm, file = folder / "calm.db", folder / "killed.db"
    subprocess.run([upd, "init", calm], check=True)
    wanted = subprocess.run([upd, "spool", calm], input=text, capture_output=True, check=True).stdout
    bad, killed, libraries = 0, 0, 0
    while killed < count:
        libraries += 1
        for old in folder.glob("killed.db*"):
            old.unlink()
        subprocess.run([upd, "init", file], check=True)
        for _ in range(20):
            process = subprocess.Popen([upd, "spool", file], stdin=subprocess.PIPE, stdout=subprocess.PIPE, stderr=subprocess.PIPE)
            try:
                out = process.communicate(text, timeout=dice.uniform(0.005, 0.25))[0]
            except subprocess.TimeoutExpired:
                process.kill()
                out = process.communicate()[0]
                killed += 1
            if not wanted.startswith(out):
                bad += 1
                print("BAD prefix of the answers", len(out))
        end = subprocess.run([upd, "spool", file], input=text, capture_output=True, check=False)
        lists = [[subprocess.run([upd, what, one], capture_output=True, check=False).stdout for what in ("idents", "yanks", "compile")] for one in (calm, file)]
        if end.stdout != wanted or lists[0] != lists[1]:
            bad += 1
            print("BAD end", end.returncode, end.stderr)
    print(f"{killed} desks killed in a spool of 1,000 frames, on {libraries} libraries: each continued to the undisturbed end" if not bad else "BAD kills")
    return bad + sound(upd, file)


def try_backups(upd, folder, dice, count):
    """Kills `upd backup` while it copies a library of 20 MB. COPY isn't there, or it is a whole library; COPY.part is no library's name."""
    file, copy = folder / "copied.db", folder / "copy.db"
    subprocess.run([upd, "init", file], check=True)
    decks = [b"*DECK D%d\n" % n + b"%s\n" % (b"X" * 60) * 1000 for n in range(1, 46)]
    text = b"".join(b"RUN LYON %d quick %d\n%s\n" % (n, len(deck), deck) for n, deck in enumerate(decks, 1))
    subprocess.run([upd, "spool", file], input=text, stdout=subprocess.DEVNULL, check=True)
    wanted = subprocess.run([upd, "idents", file], capture_output=True, check=True).stdout
    begun = time.monotonic()
    subprocess.run([upd, "backup", file, copy], check=True)
    whole, found, bad = time.monotonic() - begun, {"none": 0, "whole": 0}, 0
    for _ in range(count):
        for old in folder.glob("copy.db*"):
            old.unlink()
        process = subprocess.Popen([upd, "backup", file, copy])
        time.sleep(dice.uniform(0.3, 1.1) * whole)
        process.kill()
        process.wait()
        found["whole" if copy.exists() else "none"] += 1
        if copy.exists():
            listed = subprocess.run([upd, "idents", copy], capture_output=True, check=False).stdout
            bad += listed != wanted or sound(upd, copy)
    print(f"{count} backups killed in {whole:.1f} s each: {found}, {bad} of them cut")
    return bad + sound(upd, file)


MOST_FRAMES = 100_000
REPLY = b'{"compile":"","idents":[],"lines":0,"mode":"quick","run":%d,"site":"LYON","state":"accepted"}\n'


def numbered(dice, count, settles):
    """The numbers of `count` runs, in order. In the place of every tenth one, one that isn't settled comes a second time."""
    new, settled = 0, 0
    for frame in range(1, count + 1):
        again = frame % 10 == 0
        new += not again
        yield dice.randint(settled + 1, new) if again else new
        if settles and frame % MOST_FRAMES == 0:
            settled = new


def memory(process, field):
    """What a process has of memory, in KiB."""
    return int(re.search(field + r":\s+([0-9]+) kB", Path(f"/proc/{process.pid}/status").read_text())[1])


def feed(pipe, numbers):
    for at in range(0, len(numbers), 1000):
        pipe.write(b"".join(b"RUN LYON %d quick 0\n\n" % number for number in numbers[at:at + 1000]))
    pipe.flush()


def spool_them(upd, file, numbers, before, marks):
    """Sends one spool: how many answers are wrong. Prints the process's memory at its first frame and at each mark."""
    process = subprocess.Popen([upd, "spool", file], stdin=subprocess.PIPE, stdout=subprocess.PIPE)
    feeder = threading.Thread(target=feed, args=(process.stdin, numbers))
    feeder.start()
    bad = 0
    for at, number in enumerate(numbers, before + 1):
        bad += process.stdout.readline() != REPLY % number
        if at in marks or at == before + 1:
            now, most, held = memory(process, "VmRSS"), memory(process, "VmHWM"), file.stat().st_size >> 10
            print(f"at frame {at}: {now} KiB, {most} at most; the file has {held} KiB", flush=True)
    feeder.join()
    process.stdin.close()
    return bad + (process.wait() != 0)


def try_frames(upd, folder, dice, count, settles):
    """Sends `count` frames, in spools of the most that one may have. Where the site settles, it does so after each."""
    file = folder / f"frames{settles:d}.db"
    subprocess.run([upd, "init", file], check=True)
    numbers, bad = list(numbered(dice, count, settles)), 0
    marks = {count // 10, count // 2, count, *range(MOST_FRAMES, count, MOST_FRAMES)}
    for before in range(0, count, MOST_FRAMES):
        these = numbers[before:before + MOST_FRAMES]
        bad += spool_them(upd, file, these, before, marks)
        if settles:
            bad += subprocess.run([upd, "settle", file, "LYON", str(max(these))], stdout=subprocess.DEVNULL).returncode != 0
    how = ", settled after each spool" if settles else ""
    print(f"{count} frames, a tenth of them repeats{how}: {bad} wrong answers")
    return bad + sound(upd, file)


def main():
    words = argparse.ArgumentParser(description=__doc__.splitlines()[0])
    add_executable(words)
    words.add_argument("--seed", metavar="N", type=int, default=1, help="what the dice are thrown from (default: 1)")
    for name, count, what in [("requests", 10_000, "mutated requests"), ("spools", 10_000, "mutated spools"), ("kills", 200, "desks that are killed"), ("backups", 60, "backups that are killed"),
                              ("frames", 1_000_000, "frames, which arrive once without settlements and once with them")]:
        words.add_argument(f"--{name}", metavar="N", type=int, default=count, help=f"{what} (default: {count:,})")
    words = words.parse_args()
    tools("sqlite3")
    upd = there(words.executable)
    dice = random.Random(words.seed)
    with tempfile.TemporaryDirectory() as folder:
        folder = Path(folder)
        bad = try_requests(upd, folder, dice, words.requests) if words.requests else 0
        bad += try_spools(upd, folder, dice, words.spools) if words.spools else 0
        bad += try_kills(upd, folder, dice, words.kills) if words.kills else 0
        bad += try_backups(upd, folder, dice, words.backups) if words.backups else 0
        for settles in (False, True) if words.frames else ():
            bad += try_frames(upd, folder, dice, words.frames, settles)
    bad += wire.bad     # servers that didn't end as they should
    print(f"{bad} wrong")
    sys.exit(bad > 0)


if __name__ == "__main__":
    main()
