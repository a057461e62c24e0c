#!/usr/bin/env python3
"""Tries examples/nginx.conf in front of `upd serve`, on 127.0.0.1, with the ports and paths of a new folder, and a second library beside.

    python3 bench/proxy.py [--executable FILE]

User lyon tries to reach the paths of another site by many spellings; each must be refused, or act on lyon's own site. Then come the rows of what a strict
client may trip over, and silent clients beside one that asks. The second library's configuration is made by the command that nginx.conf names.
It needs nginx and openssl. The exit status is 1 where an answer differs.
"""

import argparse
import base64
import gzip
import os
import re
import socket
import ssl
import subprocess
import sys
import tempfile
import time
from pathlib import Path

sys.dont_write_bytecode = True
from needs import ROOT, add_executable, serve, there, tools  # noqa: E402
from wire import free_port  # noqa: E402

RUN = b"*DECK A\nONE\n"
NAME = "library.example"
SECOND = "bash.example"
LYON = "Authorization: Basic " + base64.b64encode(b"lyon:lyon").decode()
# What lyon sends to reach another site, and the statuses that are right.
OTHERS = [
    ("/sites/PARIS/runs/1/quick", 403), ("/sites/PARIS/settled/9", 403), ("/sites/%50ARIS/runs/1/quick", 403), ("/sites/%50%41%52%49%53/runs/1/quick", 403),
    ("/sites/LYON/../PARIS/runs/1/quick", 403), ("/sites/LYON/%2e%2e/PARIS/runs/1/quick", 403), ("/sites/LYON/.%2e/PARIS/runs/1/quick", 403),
    ("/sites/LYON%2f..%2fPARIS/runs/1/quick", 403), ("/sites/LYON%2F..%2FPARIS%2Fruns%2F1%2Fquick", 403), ("//sites/PARIS/runs/1/quick", 403),
    ("/sites//PARIS/runs/1/quick", 403), ("/./sites/./PARIS/runs/1/quick", 403), ("/%73ites/PARIS/runs/1/quick", 403), ("/x/../sites/PARIS/runs/1/quick", 403),
    ("/sites/%2550ARIS/runs/1/quick", 403), ("/sites/LYON%252f..%252fPARIS/runs/1/quick", 403), ("/sites/PARIS%00/runs/1/quick", 400),
    ("/sites/LYON%00/../PARIS/runs/1/quick", 400), ("/sites/PARIS/runs/1/quick?site=LYON", 403), ("/sites/PARIS/runs/1/quick%3f/sites/LYON", 403),
    ("/sites/PARIS/runs/1/quick%0a", 403), ("/sites/PARIS%0a/runs/1/quick", 403), ("/sites/LYON/runs/1/quick%0a", 403), ("/sites/paris/runs/1/quick", 403),
    ("/sites/LYON;/../PARIS/runs/1/quick", 403), ("/sites/LYON\\..\\PARIS/runs/1/quick", 403), ("/sites/PARIS /runs/1/quick", 400),
    ("/sites/PARIS/runs/1/quick/", 403), ("/sites/PARIS/runs/01/quick", 403), ("/SITES/PARIS/runs/1/quick", 403),
    ("https://library.example/sites/PARIS/runs/1/quick", 403),
    ("http://x/sites/PARIS/runs/1/quick", 421), ("/sites/PARIS/../LYON/runs/1/quick", 200), ("/sites/LYON/runs/1/quick?/sites/PARIS/runs/1/quick", 200),
    ("/sites/LYON/runs/1/quick#/../../PARIS", 200), ("/sites/%4cYON/runs/1/quick", 200),
]
bad = 0


def check(what, found, wanted):
    global bad
    bad += found != wanted
    print(f"{'ok ' if found == wanted else 'BAD'} {what}: {found}{'' if found == wanted else f', and not {wanted}'}")


def proxied(folder, port, desks):
    """The configurations of the example, and of a second library as its comment makes it, with the ports and paths of the folder."""
    (folder / "upd.conf").write_text((ROOT / "examples/nginx.conf").read_text())
    copying = re.search(r"^#     (sed .*\\\n(?:#.*\\\n)*#.*> upd-bash.conf)$", (folder / "upd.conf").read_text(), re.M)[1]
    subprocess.run(copying.replace("\n#", "\n"), shell=True, check=True, cwd=folder)
    text = "\n".join((folder / name).read_text() for name in ("upd-bash.conf", "upd.conf"))
    for old, new in [("listen 443 ", f"listen 127.0.0.1:{port} "), ("/etc/ssl/certs/library.pem", f"{folder}/cert"),
                     ("http://127.0.0.1:8080", f"http://127.0.0.1:{desks[0]}"), ("http://127.0.0.1:8081", f"http://127.0.0.1:{desks[1]}"),
                     ("/etc/ssl/private/library.key", f"{folder}/key"), ("/etc/nginx/upd.users", f"{folder}/users")]:
        text = text.replace(old, new)
    kept = "".join(f"{kind}_temp_path {folder}/{kind}; " for kind in ("client_body", "proxy", "fastcgi", "uwsgi", "scgi"))
    user = "user root; " if os.getuid() == 0 else ""
    return f"{user}daemon off; pid {folder}/pid; events {{ }} http {{ access_log {folder}/access.log; {kept}\n{text}}}\n"


class Proxy:
    def __init__(self, folder, port, desks):
        self.port = port
        (folder / "nginx.conf").write_text(proxied(folder, port, desks))
        subprocess.run(["openssl", "req", "-x509", "-newkey", "rsa:2048", "-nodes", "-keyout", folder / "key", "-out", folder / "cert", "-days", "1", "-subj",
                        f"/CN={NAME}"], check=True, capture_output=True)
        for user in ("lyon", "paris"):
            made = subprocess.run(["openssl", "passwd", "-6", user], check=True, capture_output=True, text=True).stdout
            with (folder / "users").open("a") as users:
                users.write(f"{user}:{made}")
        self.process = subprocess.Popen(["nginx", "-p", folder, "-c", folder / "nginx.conf", "-e", folder / "error.log"])
        for _ in range(100):
            time.sleep(0.05)
            with socket.socket() as probe:
                if probe.connect_ex(("127.0.0.1", port)) == 0:
                    return
        sys.exit("nginx doesn't listen")

    def connection(self, name=NAME):
        context = ssl.create_default_context()
        context.check_hostname, context.verify_mode = False, ssl.CERT_NONE
        return context.wrap_socket(socket.create_connection(("127.0.0.1", self.port), timeout=20), server_hostname=name)

    def raw(self, request, name=NAME):
        """The answer to bytes: its status, its head and its body; 0 where no connection is made."""
        try:
            with self.connection(name) as client:
                client.sendall(request)
                answer = b""
                while piece := client.recv(65536):
                    answer += piece
        except ssl.SSLError:
            return 0, b"", b""
        except OSError:
            pass
        head, _, body = answer.partition(b"\r\n\r\n")
        found = re.match(rb"HTTP/1.1 ([0-9]+)", head)
        return int(found[1]) if found else 0, head, body

    def asked(self, method, target, body=b"", user="lyon", fields=(), host=(f"Host: {NAME}",), password="lyon", name=NAME):
        known = f"Authorization: Basic {base64.b64encode(f'{user}:{password}'.encode()).decode()}" if user else "X: y"
        length = [] if any(field.startswith("Transfer") for field in fields) else [f"Content-Length: {len(body)}"]
        lines = [f"{method} {target} HTTP/1.1", *host, known, "Connection: close", *length, *fields]
        return self.raw("\r\n".join(lines).encode() + b"\r\n\r\n" + body, name)

    def second(self, method, target, body=b"", **words):
        """The answer of the second library's server."""
        return self.asked(method, target, body, host=(f"Host: {SECOND}",), name=SECOND, **words)


def try_others(proxy):
    for target, wanted in OTHERS:
        check(f"lyon: POST {target}", proxy.asked("POST", target, RUN)[0], wanted)
    path = "/sites/PARIS/runs/1/quick"
    for method in ("GET", "HEAD", "PUT", "DELETE", "PATCH", "post"):
        check(f"lyon: {method} {path}", proxy.asked(method, path)[0] in (400, 403, 405), True)
    own = "/sites/LYON/runs/1/quick"
    for what, target, user, wanted in [("without a password", path, "", 401), ("without a password", own, "", 401), ("of LYON by paris", own, "paris", 403),
                                       ("as paris, by lyon's password", path, "paris", 401), ("by a user that isn't there", path, "oslo", 403)]:
        check(f"POST {what}", proxy.asked("POST", target, RUN, user)[0], wanted)
    check("POST by a wrong password", proxy.asked("POST", own, RUN, password="x")[0], 401)
    inner = f"POST {path} HTTP/1.1\r\nHost: {NAME}\r\nContent-Length: {len(RUN)}\r\n\r\n".encode() + RUN
    check("a second request in the body", proxy.asked("POST", "/sites/LYON/runs/2/quick", inner)[0], 422)
    fields = ["Transfer-Encoding: chunked", "Content-Length: 5"]
    check("Content-Length and chunks", proxy.asked("POST", "/sites/LYON/runs/3/quick", b"0\r\n\r\n" + inner, fields=fields)[0], 400)


def try_table(proxy):
    """The rows of docs/protocol.md on strict clients."""
    status, head, body = proxy.asked("HEAD", "/idents")
    check("HEAD, with no body", (status, body), (200, b""))
    check("an answer's Date", b"\r\nDate: " in head, True)
    check("no Host", proxy.asked("GET", "/idents", host=())[0], 400)
    check("two Hosts", proxy.asked("GET", "/idents", host=(f"Host: {NAME}", "Host: evil.example"))[0], 400)
    check("another Host", proxy.asked("GET", "/idents", host=("Host: evil.example",))[0], 421)
    check("another name in the handshake", proxy.raw(b"GET /idents HTTP/1.1\r\nHost: evil.example\r\n\r\n", "evil.example")[0], 0)
    check("Origin", proxy.asked("POST", "/sites/LYON/runs/4/quick", RUN, fields=["Origin: https://evil.example"])[0], 403)
    check("an absolute target", proxy.asked("GET", f"https://{NAME}/idents")[0], 200)
    check("Content-Encoding", proxy.asked("POST", "/sites/LYON/runs/4/quick", gzip.compress(RUN), fields=["Content-Encoding: gzip"])[0], 415)
    check("the type of `curl -d`", proxy.asked("POST", "/sites/LYON/runs/4/quick", RUN, fields=["Content-Type: application/x-www-form-urlencoded"])[0], 415)
    chunks = b"".join(b"%x\r\n%s\r\n" % (len(line), line) for line in (b"*IDENT L4\n", b"*INSERT A.1\n", b"FOUR\n")) + b"0\r\n\r\n"
    check("a body in chunks", proxy.asked("POST", "/sites/LYON/runs/4/quick", chunks, fields=["Transfer-Encoding: chunked"])[0], 200)
    with proxy.connection() as client:
        client.sendall(f"POST /sites/LYON/settled/0 HTTP/1.1\r\nHost: {NAME}\r\n{LYON}\r\nExpect: 100-continue\r\nContent-Length: 3\r\n\r\n".encode())
        check("Expect: 100-continue", client.recv(99)[:21], b"HTTP/1.1 100 Continue")
    twice = f"GET /idents HTTP/1.1\r\nHost: {NAME}\r\n{LYON}\r\n\r\n".encode()
    check("two requests on a connection", proxy.raw(twice + twice.replace(b"\r\n\r\n", b"\r\nConnection: close\r\n\r\n"))[2].count(b"HTTP/1.1 200"), 1)
    check("a target of 9,000 bytes", proxy.asked("GET", "/" + "x" * 9000)[0], 414)
    check("a body of 65,537 bytes", proxy.asked("POST", "/sites/LYON/runs/5/quick", b"x" * 65537)[0], 413)


def try_slow(proxy):
    """Clients that say nothing, send half a head or half a body and then a byte at a time, or don't read their answer: the next isn't held up."""
    head = f" /sites/LYON/runs/9/quick HTTP/1.1\r\nHost: {NAME}\r\n{LYON}\r\nContent-Length: 100\r\n\r\n".encode()
    whole = f"GET /idents HTTP/1.1\r\nHost: {NAME}\r\n{LYON}\r\n\r\n".encode()
    slow = [proxy.connection() for _ in range(16)] + [socket.create_connection(("127.0.0.1", proxy.port)) for _ in range(14)]
    for at, client in enumerate(slow[:16]):
        client.sendall([b"", b"GET /ide", b"POST" + head + b"ONE", whole][at % 4])
    for byte in b"nts":
        for client in slow[1:16:4] + slow[2:16:4]:
            client.sendall(bytes([byte]))
        start = time.monotonic()
        check("a question beside 30 slow clients", proxy.asked("GET", "/idents")[0], 200)
        check("and in less than 2 seconds", time.monotonic() - start < 2, True)
    for client in slow:
        client.close()


def try_two(proxy):
    """The second library: its own numbers and names, and the same table of users. try_others has left run 1 of LYON in the first one."""
    run, target = b"*DECK B\nTWO\n", "/sites/LYON/runs/1/quick"
    check("run 1 of LYON to the second library", proxy.second("POST", target, run)[0], 200)
    check("another run under that number", proxy.second("POST", target, RUN)[0], 409)
    check("that run to the first library, which has another", proxy.asked("POST", target, run)[0], 409)
    for what, asked, deck, other in [("first", proxy.asked, b"A", b"B"), ("second", proxy.second, b"B", b"A")]:
        check(f"the deck of the {what} library", asked("GET", f"/decks/{deck.decode()}")[0], 200)
        check(f"that of the other in the {what} library", asked("GET", f"/decks/{other.decode()}")[0], 404)
    check("lyon: a run of PARIS to the second library", proxy.second("POST", "/sites/PARIS/runs/1/quick", run)[0], 403)
    check("a run without a password to the second library", proxy.second("POST", target, run, user="")[0], 401)
    check("a run to the second library from a page in a browser", proxy.second("POST", target, run, fields=["Origin: https://evil.example"])[0], 403)
    check("a third name in the handshake", proxy.asked("GET", "/idents", name="zsh.example")[0], 0)


def main():
    words = argparse.ArgumentParser(description=__doc__.splitlines()[0])
    add_executable(words)
    upd = there(words.parse_args().executable)
    os.environ["PATH"] += ":/usr/sbin"
    tools("nginx", "openssl")
    with tempfile.TemporaryDirectory() as folder:
        folder = Path(folder)
        files = [folder / "library.db", folder / "bash.db"]
        for file in files:
            subprocess.run([upd, "init", file], check=True)
        served = [serve(upd, file, "127.0.0.1:0", file.with_suffix(".log")) for file in files]
        servers = [server for server, _ in served]
        proxy = Proxy(folder, free_port(), [desk for _, desk in served])
        try:
            try_others(proxy)
            try_table(proxy)
            try_slow(proxy)
            try_two(proxy)
            for asked, other in [(proxy.asked, proxy.second), (proxy.second, proxy.asked)]:
                server = servers.pop(0)
                server.terminate()
                server.wait()
                check("a question while upd is stopped", asked("GET", "/idents")[0], 502)
                check("and one to the other library", other("GET", "/idents")[0], 200 if servers else 502)
        finally:
            proxy.process.terminate()
            for server in servers:
                server.kill()
            proxy.process.wait()
        for file in files:
            sites = subprocess.run([upd, "sites", file], check=True, capture_output=True, text=True).stdout
            check(f"the sites of {file.name} that have runs or marks", [line.split()[0] for line in sites.splitlines()], ["LYON"])
    print(f"{bad} wrong")
    sys.exit(bad > 0)


if __name__ == "__main__":
    main()
