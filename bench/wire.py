#!/usr/bin/env python3
"""Tries the lasting executable as sites do: curl and plain sockets against `upd serve` and `upd serve-local`, and the sqlite3 shell on the file.

    python3 bench/wire.py [--executable FILE] [--times]

Each line has a request, what it got, and whether that is what docs/protocol.md says. --times also prints the processor time of `upd`: of requests to a
library of 500 cards, of spools of 10,000 runs, of a run on a full library, and of the start. The exit status is 1 where an answer differs or a budget is
passed.
"""

import argparse
import json
import os
import re
import resource
import shutil
import socket
import stat
import statistics
import subprocess
import sys
import tempfile
import time
from pathlib import Path

sys.dont_write_bytecode = True
from needs import ROOT, add_executable, there, tools  # noqa: E402


def free_port():
    """A port of this machine that nobody listens on."""
    with socket.create_server(("127.0.0.1", 0)) as server:
        return server.getsockname()[1]


PORT = free_port()
RUN = b"*DECK A/B\nONE\nTWO\nTHREE\n"
LINE = re.compile(r"upd: \S+ \S+ \S+ (\d+|-) (\d\d\d|-) [A-Za-z]+ \d+ \d+ \d+ms")
bad = 0


def check(what, found, wanted):
    global bad
    right = found == wanted
    bad += not right
    print(f"{'ok ' if right else 'BAD'} {what}: {found if right else f'{found!r}, and not {wanted!r}'}")


class Server:
    """`upd serve` for `count` connections, with the processor time that it took."""

    def __init__(self, upd, file, count):
        self.log = Path(file).parent / "serve.log"
        with self.log.open("wb") as output:
            self.process = subprocess.Popen([upd, "serve", file, f"127.0.0.1:{PORT}", str(count)], stderr=output)
        self.count = count
        end = time.monotonic() + 30
        while not self.log.read_bytes().endswith(b"\n") and time.monotonic() < end:
            time.sleep(0.01)
        line = self.log.read_text() or "nothing in 30 s"
        if line != f"upd: listening on 127.0.0.1:{PORT}\n":
            self.process.kill()
            sys.exit(f"upd serve says, in place of where it listens: {line!r}")

    def __enter__(self):
        return self

    def seconds(self):
        return int(Path(f"/proc/{self.process.pid}/schedstat").read_text().split()[0]) / 1e9

    def __exit__(self, *_):
        try:
            status = self.process.wait(timeout=20)
        except subprocess.TimeoutExpired:
            self.process.kill()
            status = "still there"
        check(f"upd serve ends after {self.count} connections with status", status, 0)
        lines = self.log.read_text().splitlines()[1:]
        check("connections with a line of the form that protocol.md has", sum(map(bool, map(LINE.fullmatch, lines))), self.count)
        check("other lines", len(lines) - self.count, 0)
        time.sleep(0.05)


def exchange(request, cut=False):
    """Sends bytes, then reads all that comes; with cut the client goes away before it reads."""
    with socket.create_connection(("127.0.0.1", PORT)) as client:
        client.sendall(request)
        if cut:
            return b""
        client.shutdown(socket.SHUT_WR)
        answer = b""
        while piece := client.recv(65536):
            answer += piece
        return answer


def head(length):
    """A whole head of `length` bytes."""
    start = b"GET /idents HTTP/1.1\r\nX: "
    return start + b"x" * (length - len(start) - 4) + b"\r\n\r\n"


def curl(*words):
    found = subprocess.run(["curl", "-s", "-i", "--noproxy", "*", *words], capture_output=True, check=False).stdout
    return found.replace(b"\r\n", b"\n")


def status(answer):
    return answer.split(b"\n", 1)[0].strip().decode()


def body(answer):
    return answer.replace(b"\r\n", b"\n").split(b"\n\n", 1)[-1].decode()


def try_curl(upd, file):
    at = f"http://127.0.0.1:{PORT}"
    (file.parent / "run").write_bytes(RUN)
    (file.parent / "other").write_bytes(b"*IDENT X\n*DELETE A/B.9\n")
    (file.parent / "full").write_bytes(b"x\n" * 32768)
    (file.parent / "long").write_bytes(b"x\n" * 32768 + b"x")
    (file.parent / "call").write_bytes(b"*DECK C\n*CALL NONE\n")
    run, other, full, long, call = (f"@{file.parent / name}" for name in ("run", "other", "full", "long", "call"))
    cases = [
        ("POST a run", ["--data-binary", run, f"{at}/sites/LYON/runs/1/full"], "200 OK"),
        ("POST it again", ["--data-binary", run, f"{at}/sites/LYON/runs/1/full"], "200 OK"),
        ("POST it in another mode", ["--data-binary", run, f"{at}/sites/LYON/runs/1/quick"], "409 Conflict"),
        ("POST a refused run", ["--data-binary", other, f"{at}/sites/LYON/runs/2/full"], "422 Unprocessable Entity"),
        ("POST a site that is not valid", ["--data-binary", run, f"{at}/sites/lyon/runs/1/full"], "400 Bad Request"),
        ("POST a number that is not valid", ["--data-binary", run, f"{at}/sites/LYON/runs/01/full"], "400 Bad Request"),
        ("POST number 0", ["--data-binary", run, f"{at}/sites/LYON/runs/0/full"], "400 Bad Request"),
        ("POST a mode that is not valid", ["--data-binary", run, f"{at}/sites/LYON/runs/3/slow"], "400 Bad Request"),
        ("POST 65,536 bytes", ["--data-binary", full, f"{at}/sites/LYON/runs/3/full"], "422 Unprocessable Entity"),
        ("POST 65,537 bytes", ["--data-binary", long, f"{at}/sites/LYON/runs/4/full"], "413 Payload Too Large"),
        ("GET the compile file", [f"{at}/compile"], "200 OK"),
        ("GET a deck", [f"{at}/decks/A%2FB"], "200 OK"),
        ("GET a deck that isn't there", [f"{at}/decks/NOPE"], "404 Not Found"),
        ("GET a deck whose name is not valid", [f"{at}/decks/nope"], "400 Bad Request"),
        ("GET a card", [f"{at}/cards/A%2FB/2"], "200 OK"),
        ("GET a card that isn't there", [f"{at}/cards/A%2FB/9"], "404 Not Found"),
        ("GET a card that is not valid", [f"{at}/cards/A%2FB/x"], "400 Bad Request"),
        ("GET the idents", [f"{at}/idents"], "200 OK"),
        ("GET the idents by HTTP/1.0", ["-0", f"{at}/idents?x=1"], "200 OK"),
        ("GET the yanks", [f"{at}/yanks"], "200 OK"),
        ("GET no route", [f"{at}/idents/"], "404 Not Found"),
        ("HEAD of the idents", ["-X", "HEAD", "--max-time", "2", f"{at}/idents"], "405 Method Not Allowed"),
        ("DELETE a deck", ["-X", "DELETE", f"{at}/decks/A%2FB"], "405 Method Not Allowed"),
        ("GET a run's route", [f"{at}/sites/LYON/runs/1/full"], "405 Method Not Allowed"),
        ("POST by pieces", ["-H", "Transfer-Encoding: chunked", "--data-binary", run, f"{at}/sites/LYON/runs/5/full"], "400 Bad Request"),
        ("POST a settlement", ["-X", "POST", f"{at}/sites/LYON/settled/1"], "200 OK"),
        ("POST a settled run", ["--data-binary", run, f"{at}/sites/LYON/runs/1/full"], "410 Gone"),
        ("POST a call of nothing, quick", ["--data-binary", call, f"{at}/sites/LYON/runs/6/quick"], "200 OK"),
        ("GET a compile file with it", [f"{at}/compile"], "422 Unprocessable Entity"),
    ]
    answers = {}
    with Server(upd, file, len(cases)):
        for what, words, wanted in cases:
            answers[what] = curl(*words)
            check(what, status(answers[what]), f"HTTP/1.1 {wanted}")
    check("the repeat is the first reply", answers["POST it again"] == answers["POST a run"], True)
    check("the mark", body(answers["POST a settlement"]), '{"settled":1,"site":"LYON"}')
    check("the settled run", body(answers["POST a settled run"]), '{"at":0,"fault":27,"name":"Settled"}')
    check("the changed run", body(answers["POST it in another mode"]), '{"at":0,"fault":26,"name":"RunChanged"}')
    check("the idents", body(answers["GET the idents"]), "1 A/B deck held\n")
    check("the deck", body(answers["GET a deck"]), "DECK A/B\nA A/B.1 *DECK A/B\nA A/B.2 ONE\nA A/B.3 TWO\nA A/B.4 THREE\n")
    check("what is allowed", "Allow: POST" in answers["GET a run's route"].decode(), True)


def try_sockets(upd, file):
    bad_frame = '{"at":0,"fault":30,"name":"BadFrame"}'
    post = b"POST /sites/PARIS/runs/%d/quick HTTP/1.1\r\nHost: l\r\nContent-Length: %d\r\n\r\n%s"
    cases = [
        ("a head of 8,192 bytes", head(8192), "200 OK"),
        ("a head of 8,193 bytes", head(8193), "400 Bad Request"),
        ("32 headers", b"GET /idents HTTP/1.1\r\n" + b"X: y\r\n" * 32 + b"\r\n", "200 OK"),
        ("33 headers", b"GET /idents HTTP/1.1\r\n" + b"X: y\r\n" * 33 + b"\r\n", "400 Bad Request"),
        ("two lengths", b"POST /sites/PARIS/runs/1/quick HTTP/1.1\r\nContent-Length: 0\r\ncontent-length: 0\r\n\r\n", "400 Bad Request"),
        ("a signed length", b"POST /sites/PARIS/runs/1/quick HTTP/1.1\r\nContent-Length: +0\r\n\r\n", "400 Bad Request"),
        ("bytes after the body", post % (1, 0, b"GET /idents HTTP/1.1\r\n\r\n"), "200 OK"),
        ("no head", b"hello\r\n\r\n", "400 Bad Request"),
        ("an expectation", b"GET /idents HTTP/1.1\r\nExpect: 100-continue\r\n\r\n", "200 OK"),
    ]
    with Server(upd, file, len(cases) + 4):
        for what, request, wanted in cases:
            answer = exchange(request)
            check(what, status(answer), f"HTTP/1.1 {wanted}")
            if wanted.startswith("400"):
                check(f"{what}, its text", body(answer), bad_frame)
        check("a body that is cut", exchange(post % (2, 30, b"*DECK")), b"")
        check("nothing at all", exchange(b""), b"")
        exchange(post % (3, len(RUN), RUN.replace(b"A/B", b"D/E")), cut=True)
        check("a client that went away is answered when it comes again",
             json.loads(body(exchange(post % (3, len(RUN), RUN.replace(b"A/B", b"D/E")))))["idents"], ["D/E"])


def try_file_alone(upd, file):
    """Once `serve` has ended, its file without the log is the library: a copy has all that was answered."""
    copy = file.parent / "alone.db"
    shutil.copyfile(file, copy)
    found = subprocess.run([upd, "idents", copy], capture_output=True, check=False, text=True).stdout
    check("the file without its log, after serve, has the idents", found.splitlines(), ["1 A/B deck held", "2 C deck held", "3 D/E deck held"])


def try_sqlite3(file):
    shell = subprocess.run(["sqlite3", file, "SELECT site, num, mode, accepted FROM runs ORDER BY site, num; PRAGMA integrity_check;"],
                           capture_output=True, check=False, text=True)
    check("sqlite3 on the runs", shell.stdout.split(), ["LYON|2|0|0", "LYON|3|0|0", "LYON|6|1|1", "PARIS|1|1|1", "PARIS|3|1|1", "ok"])


def serve_local(upd, file, path, count):
    """`upd serve-local` at a path, and the first line that it writes."""
    server = subprocess.Popen([upd, "serve-local", file, path, str(count)], stderr=subprocess.PIPE, text=True)
    return server, server.stderr.readline()


def ends(server):
    """The status of a server, and its lines after the first."""
    lines = server.stderr.read()
    return server.wait(timeout=20), lines


def asks(path):
    """The first line of what a socket answers."""
    with socket.socket(socket.AF_UNIX) as client:
        client.connect(str(path))
        client.sendall(b"GET /idents HTTP/1.1\r\n\r\n")
        client.shutdown(socket.SHUT_WR)
        return client.recv(65536).split(b"\r\n")[0].decode()


def try_local(upd, folder):
    """A socket is for its owner only, is replaced where nobody serves it, and is made nowhere else."""
    file, path, notes = folder / "local.db", folder / "desk.socket", folder / "notes"
    subprocess.run([upd, "init", file], check=True)
    folder.chmod(0o755)
    server, line = serve_local(upd, file, path, 4)
    check("upd serve-local says", line, f"upd: listening on {path}\n")
    mode = path.lstat().st_mode
    check("a socket, its mode", (stat.S_ISSOCK(mode), oct(mode & 0o7777)), (True, "0o600"))
    check("the folder where it was made", Path(f"{path}.new").exists(), False)
    check("a plain socket", asks(path), "HTTP/1.1 200 OK")
    check("curl --unix-socket", status(curl("--unix-socket", path, "http://desk/idents")), "HTTP/1.1 200 OK")
    if os.getuid() == 0:
        other = subprocess.run(["curl", "-s", "--unix-socket", path, "http://desk/idents"], user="nobody", capture_output=True, check=False)
        check("curl of another user, its status", other.returncode, 7)
    (folder / "outbox").mkdir()
    (folder / "outbox/fix.quick").write_bytes(RUN)
    site = subprocess.run([ROOT / "examples/site.sh", folder, "LYON", "http://desk"], env={**os.environ, "SOCKET": str(path)},
                          capture_output=True, check=False, text=True)
    check("site.sh with SOCKET", (site.returncode, site.stdout), (0, "1.fix.quick is accepted\n"))
    found, lines = ends(server)
    check("upd serve-local ends, with lines", (found, sum(map(bool, map(LINE.fullmatch, lines.splitlines())))), (0, 4))
    server, _ = serve_local(upd, file, path, 9)
    server.kill()
    ends(server)
    server, line = serve_local(upd, file, path, 2)
    check("the socket of a killed server is replaced", line, f"upd: listening on {path}\n")
    subprocess.run([upd, "init", folder / "second.db"], check=True)
    second, line = serve_local(upd, folder / "second.db", path, 1)
    check("another server there", (line, ends(second)), (f"upd: no socket at {path}: another server may use it\n", (3, "upd: Read (32) at 0\n")))
    check("the first is still asked", asks(path), "HTTP/1.1 200 OK")
    check("it ends", ends(server)[0], 0)
    notes.write_text("notes")
    refused = [(notes, "something else is there"), (folder, "something else is there"),
               (folder / ("x" * 100), "its path has more than 100 bytes"), (folder / "none/x", "it can't be made, or PATH.new exists")]
    for place, why in refused:
        server, line = serve_local(upd, file, place, 1)
        check(f"a socket at {place}", (line, ends(server)), (f"upd: no socket at {place}: {why}\n", (3, "upd: Read (32) at 0\n")))
    check("the file there", notes.read_text(), "notes")


def spent(words, data=b""):
    """Processor seconds of a command, and its output."""
    before = resource.getrusage(resource.RUSAGE_CHILDREN)
    done = subprocess.run(words, input=data, capture_output=True, check=False)
    after = resource.getrusage(resource.RUSAGE_CHILDREN)
    return after.ru_utime + after.ru_stime - before.ru_utime - before.ru_stime, done


def within(what, seconds, budget):
    global bad
    right = seconds <= budget
    bad += not right
    print(f"{'ok ' if right else 'BAD'} {what}: {1000 * seconds:.3f} ms of processor time, and {1000 * budget:g} may be")


def try_times(upd, folder):
    file = folder / "timed.db"
    subprocess.run([upd, "init", file], check=True)
    decks = b"".join(b"*DECK D%d\n" % n + b"".join(b"LINE %d\n" % k for k in range(49)) for n in range(10))
    check("500 cards", json.loads(spent([upd, "run", file, "A", "1", "quick"], decks)[1].stdout)["state"], "accepted")
    helped = [spent([upd, "--help"]) for _ in range(20)]
    check("upd --help, its statuses", {done.returncode for _, done in helped}, {0})
    within("upd --help", min(seconds for seconds, _ in helped), 0.002)
    handed = [spent([upd, "run", file, "B", str(n), "quick"], b"*IDENT R%d\n*INSERT D1.2\nX\n" % n) for n in range(1, 11)]
    check("upd run, its statuses", {done.returncode for _, done in handed}, {0})
    within("upd run, three lines on 500 cards", min(seconds for seconds, _ in handed), 0.03)
    count = 400
    cases = [
        ("POST of three lines", [b"*IDENT P%d\n*INSERT D2.2\nX\n" % n for n in range(count)], "/sites/C/runs/%d/quick", 0.0025),
        ("POST of a repeat", [b"*IDENT P0\n*INSERT D2.2\nX\n"] * count, "/sites/C/runs/1/quick", None),
        ("POST of a settlement", [b""] * count, "/sites/D/settled/%d", None),
        ("GET /idents", None, "/idents", 0.0005),
    ]
    with Server(upd, file, count * len(cases)) as server:
        for what, bodies, path, budget in cases:
            before, answers = server.seconds(), set()
            for n in range(count):
                if bodies is None:
                    request = f"GET {path} HTTP/1.1\r\n\r\n".encode()
                else:
                    target = path % (n + 1) if "%d" in path else path
                    request = f"POST {target} HTTP/1.1\r\nContent-Length: {len(bodies[n])}\r\n\r\n".encode() + bodies[n]
                answers.add(status(exchange(request)))
            each = (server.seconds() - before) / count
            check(f"{what}, its statuses", answers, {"HTTP/1.1 200 OK"})
            if budget is None:
                print(f"    {what}: {1000 * each:.3f} ms of processor time")
            else:
                within(what, each, budget)
    for what, cards, budget in [("an empty library", b"", 0.001), ("500 cards", decks, None)]:
        file = folder / f"spool{len(cards)}.db"
        subprocess.run([upd, "init", file], check=True)
        spent([upd, "run", file, "A", "1", "quick"], cards)
        frames = b"".join(b"RUN S %d quick %d\n%s\n" % (n, len(b"*/ %d\n" % n), b"*/ %d\n" % n) for n in range(1, 10_001))
        start = time.monotonic()
        taken, done = spent([upd, "spool", file], frames)
        wall = time.monotonic() - start
        check(f"accepted runs in a spool of 10,000 frames on {what}", done.stdout.count(b'"state":"accepted"}\n'), 10_000)
        print(f"    {10_000 / wall:.0f} frames a second")
        if budget is None:
            print(f"    a frame on {what}: {taken / 10:.3f} ms of processor time")
        else:
            within(f"a frame on {what}", taken / 10_000, budget)

    try_large(upd, folder)


def spooled(upd, file, site, runs):
    """Processor seconds of a spool of quick runs, each accepted."""
    frames = b"".join(b"RUN %s %d quick %d\n%s\n" % (site, n, len(run), run) for n, run in enumerate(runs, 1))
    taken, done = spent([upd, "spool", file], frames)
    check(f"accepted runs of {site.decode()}", done.stdout.count(b'"state":"accepted"}\n'), len(runs))
    return taken


def large_library(upd, file):
    """25 decks of 1,996 cards with some 198,000 entries in all; a full compile file has some 9,000 lines."""
    subprocess.run([upd, "init", file], check=True)
    spooled(upd, file, b"DECKS", [b"*DECK D%d\n" % k + b"".join(b"LINE %d\n" % n for n in range(1995)) for k in range(25)])
    deleted = [1640, 1640, 1640, 1000]
    spooled(upd, file, b"HIST", [b"*IDENT H%d\n" % k + b"".join(b"*DELETE D%d.2,D%d.%d\n" % (d, d, last) for d in range(25)) for k, last in enumerate(deleted)])


def small_library(upd, file):
    """10 decks of 50 cards."""
    subprocess.run([upd, "init", file], check=True)
    spooled(upd, file, b"DECKS", [b"*DECK D%d\n" % k + b"".join(b"LINE %d\n" % n for n in range(49)) for k in range(10)])


# a run in words, its mode, its text with a number of its own, and its budget on the large library
RUNS = [
    ("a plain quick run on one deck", "quick", "*IDENT Q%d\n*DELETE D2.3\nX\n", 0.06),
    ("a plain quick run that names the deck to compile", "quick", "*IDENT C%d\n*DELETE D2.3\nX\n*COMPILE D2\n", None),
    ("a plain normal run on one deck", "normal", "*IDENT N%d\n*DELETE D2.3\nX\n", None),
    ("a full run", "full", "*IDENT F%d\n*DELETE D2.3\nX\n", None),
    ("a yank", "quick", "*IDENT Y%d\n*YANK Q1\n", None),
]


def spent_each(server, requests):
    """Processor seconds of each request, and the answers."""
    each, answers = [], []
    for request in requests:
        before = server.seconds()
        answers.append(exchange(request))
        each.append(server.seconds() - before)
    return each, answers


def try_large(upd, folder, times=9):
    """Runs on a large library beside the same on a small one, the desk open: median processor time. The first run on an open file counts cards and entries."""
    taken = {}
    for size, make in [("small", small_library), ("large", large_library)]:
        file = folder / f"{size}.db"
        make(upd, file)
        with Server(upd, file, times * (len(RUNS) + 1)) as server:
            for case, (what, mode, run, _) in enumerate(RUNS):
                bodies = [(run % n).encode() for n in range(1, times + 1)]
                posts = [b"POST /sites/T%d/runs/%d/%s HTTP/1.1\r\nContent-Length: %d\r\n\r\n" % (case, n, mode.encode(), len(body)) + body
                         for n, body in enumerate(bodies, 1)]
                each, answers = spent_each(server, posts)
                if case == 0:
                    print(f"    the first run on an open file, {size} library: {1000 * each[0]:.2f} ms of processor time")
                taken[size, what] = statistics.median(each)
                check(f"{what}, {size} library", {status(answer) for answer in answers}, {"HTTP/1.1 200 OK"})
            taken[size, "idents"] = statistics.median(spent_each(server, [b"GET /idents HTTP/1.1\r\n\r\n"] * times)[0])
    for what, _, _, budget in RUNS + [("idents", None, None, None)]:
        beside = f"{what}, large library (on 500 cards {1000 * taken['small', what]:.2f} ms)"
        if budget is None:
            print(f"    {beside}: {1000 * taken['large', what]:.1f} ms of processor time")
        else:
            within(beside, taken["large", what], budget)


def main():
    words = argparse.ArgumentParser(description=__doc__.splitlines()[0])
    add_executable(words)
    words.add_argument("--times", action="store_true", help="measure processor times too")
    words = words.parse_args()
    tools("curl", "sqlite3")
    upd = there(words.executable)
    with tempfile.TemporaryDirectory() as folder:
        file = Path(folder) / "library.db"
        subprocess.run([upd, "init", file], check=True)
        try_curl(upd, file)
        try_sockets(upd, file)
        try_file_alone(upd, file)
        try_sqlite3(file)
        try_local(upd, Path(folder))
        if words.times:
            try_times(upd, Path(folder))
    sys.exit(bad > 0)


if __name__ == "__main__":
    main()
