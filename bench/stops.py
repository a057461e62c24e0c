#!/usr/bin/env python3
"""Stops a loaded server again and again by a signal, and compares what is left with what was answered.

    python3 bench/stops.py [--executable FILE] [--stops N] [--seconds N] [--sites N] [--seed N]

Each site sends its runs in order, one connection each, to `upd serve` on 127.0.0.1, and sends a run again, the same bytes, until it is answered. Between
two stops it has a few new runs, and repeats older ones beside them. At a random moment, after some answers, the server is ended by SIGTERM (each fifth
time by SIGKILL), and started again. A run replaces the site's line of a deck that all share, so that its reply depends on the order of all runs.

After each stop: the library is sound, each answered run is stored, and at most one more than before is stored without an answer. At the end: each reply,
first or repeated, is byte for byte that of a library to which the same runs came in the same order, without a stop, and so are the listings and the compile
file. The exit status is 1 where something differs, or where no stop cut a request.
"""

import argparse
import http.client
import random
import signal
import subprocess
import sys
import tempfile
import threading
import time
from pathlib import Path

sys.dont_write_bytecode = True
from needs import add_executable, serve, there  # noqa: E402


NEW_RUNS = 4    # of a site, between two stops; a library holds 4,096 sets


def run_of(site, number):
    """A run that replaces the site's line by another; each tenth one yanks the set before it, so that the line before that comes back."""
    if number % 10 == 0:
        return f"*IDENT {site}{number}\n*YANK {site}{number - 1}\n".encode()
    last = number - 3 if number % 10 == 1 else number - 1
    return f"*IDENT {site}{number}\n{f'*DELETE {site}{last}.1' if last > 0 else '*INSERT A.1'}\n      CALL {site}({number})\n".encode()


class Site(threading.Thread):
    """A site that sends until it is ended. `replies` has what came for each number."""

    def __init__(self, name, desk):
        super().__init__(daemon=True)
        self.name, self.desk, self.replies, self.cut, self.wrong, self.busy = name, desk, {}, 0, [], False

    def run(self):
        while not self.desk.ended and not self.wrong:
            self.busy = True
            self.send()
            self.busy = False
            time.sleep(0.001)

    def send(self):
        """Sends the next run, or one again where there are enough new ones."""
        number = len(self.replies) + 1
        if number > self.desk.starts * NEW_RUNS:
            number = random.randrange(1, number)
        reply = self.sent(number)
        self.desk.answered += reply is not None
        if reply and (reply[0] != 200 or self.replies.setdefault(number, reply[1]) != reply[1]):
            self.wrong.append(f"{self.name} {number}: {reply}")

    def sent(self, number):
        """The status and the body of the answer to a run, or nothing."""
        port = self.desk.port
        if not port:
            return None
        client, connected = http.client.HTTPConnection("127.0.0.1", port, timeout=60), False
        try:
            client.connect()
            connected = True
            client.request("POST", f"/sites/{self.name}/runs/{number}/normal", run_of(self.name, number))
            answer = client.getresponse()
            return answer.status, answer.read()
        except (OSError, http.client.HTTPException):
            self.cut += connected
            return None
        finally:
            client.close()


class Desk:
    """`upd serve` on a file, which can be stopped and started. Its port is 0 while it isn't there."""

    def __init__(self, upd, file):
        self.upd, self.file, self.port, self.starts, self.answered, self.ended = upd, file, 0, 0, 0, False

    def start(self):
        self.starts += 1
        self.process, self.port = serve(self.upd, self.file, "127.0.0.1:0", self.file.with_suffix(".log"))

    def stop(self, how):
        self.port = 0
        self.process.send_signal(how)
        self.process.wait()


def said(upd, *words):
    return subprocess.run([upd, *words], capture_output=True, check=True).stdout


def stored(upd, file):
    """The keys of the stored runs."""
    return {tuple(line.split()[:2]) for line in said(upd, "runs", file).decode().splitlines()}


def after_stop(upd, file, sites, before):
    """The runs that are stored without an answer, and what is wrong with a library after a stop. `before` are those runs at the stop before."""
    while any(site.busy for site in sites.values()):
        time.sleep(0.001)
    there_now = stored(upd, file)
    answered = {(name, str(number)) for name, site in sites.items() for number in list(site.replies)}
    wrong = [f"answered and not stored: {key}" for key in answered - there_now]
    more = there_now - answered - {("ZERO", "1")}
    if len(more - before) > 1:
        wrong.append(f"stored and not answered: {more - before}")
    found = subprocess.run([upd, "examine", file], capture_output=True, check=False)
    return more, wrong + ([f"upd examine: {found}"] if found.returncode else [])


def compared(upd, file, calm, sites):
    """What differs from a library to which the runs came in the same order, without a stop."""
    said(upd, "init", calm)
    names = [line.split()[1] for line in said(upd, "idents", file).decode().splitlines()]
    order = [(name.rstrip("0123456789"), int(name.lstrip("ABCDEFGHIJKLMNOPQRSTUVWXYZ"))) for name in names[1:]]
    frames = b"RUN ZERO 1 quick 8\n*DECK A\n\n"
    for site, number in order:
        run = run_of(site, number)
        frames += b"RUN %s %d normal %d\n%s\n" % (site.encode(), number, len(run), run)
    replies = subprocess.run([upd, "spool", calm], input=frames, capture_output=True, check=True).stdout.splitlines()[1:]
    wrong = [f"a reply differs: {key}" for key, reply in zip(order, replies) if sites[key[0]].replies.get(key[1], reply) != reply]
    missing = {(name, number) for name, site in sites.items() for number in site.replies} - set(order)
    wrong += [f"answered and not in the library: {missing}"] if missing else []
    again = subprocess.run([upd, "spool", file], input=frames, capture_output=True, check=True).stdout.splitlines()[1:]
    wrong += ["a repeat differs"] if again != replies else []
    return wrong + [f"upd {words[0]} differs" for words in [("idents",), ("yanks",), ("compile",), ("list", "A"), ("blame", "A")]
                    if said(upd, words[0], file, *words[1:]) != said(upd, words[0], calm, *words[1:])]


def main():
    words = argparse.ArgumentParser(description=__doc__.splitlines()[0])
    add_executable(words)
    for name, count, what in [("stops", 200, "stops"), ("seconds", 600, "seconds at most"), ("sites", 4, "sites that send at once"), ("seed", 1, "seed")]:
        words.add_argument(f"--{name}", metavar="N", type=int, default=count, help=f"{what} (default: {count})")
    words = words.parse_args()
    upd, dice, last = there(words.executable), random.Random(words.seed), time.monotonic() + words.seconds
    wrong, stops, unanswered, before = [], 0, 0, set()
    with tempfile.TemporaryDirectory() as folder:
        file, calm = Path(folder) / "library.db", Path(folder) / "calm.db"
        said(upd, "init", file)
        subprocess.run([upd, "run", file, "ZERO", "1", "quick"], input=b"*DECK A\n", check=True, stdout=subprocess.DEVNULL)
        desk = Desk(upd, file)
        sites = {name: Site(name, desk) for name in ("LYON", "PARIS", "OSLO", "ROME", "BERN", "GENT", "KIEL", "NICE")[:words.sites]}
        desk.start()
        for site in sites.values():
            site.start()
        while stops < words.stops and time.monotonic() < last and not wrong:
            wanted = desk.answered + dice.randint(1, 2 * NEW_RUNS * len(sites))
            while desk.answered < wanted and time.monotonic() < last:
                time.sleep(0.001)
            time.sleep(dice.uniform(0, 0.02))
            desk.stop(signal.SIGKILL if stops % 5 == 4 else signal.SIGTERM)
            stops += 1
            more, found = after_stop(upd, file, sites, before)
            unanswered += len(more - before)
            before = more
            wrong += found
            desk.start()
        desk.ended = True
        for site in sites.values():
            site.join(90)
            wrong += site.wrong
        desk.stop(signal.SIGTERM)
        answered = sum(len(site.replies) for site in sites.values())
        wrong += compared(upd, file, calm, sites)
    cut = sum(site.cut for site in sites.values())
    for line in wrong:
        print("BAD", line)
    print(f"{stops} stops, {answered} runs of {words.sites} sites answered, {cut} requests cut, {unanswered} of them stored, {len(wrong)} wrong")
    sys.exit(bool(wrong) or not cut)


if __name__ == "__main__":
    main()
