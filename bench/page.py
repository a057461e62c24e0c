#!/usr/bin/env python3
"""Opens pages of `upd page` in a browser.

    python3 bench/page.py [--executable FILE] [--picture FILE.png]

Needs Chromium, as `chromium` on the path. The first page is of a library whose cards are texts that a browser would act on, if they were not escaped: scripts,
elements, entities and quotes. The browser's document has the elements of a page and no other, its title, and each card's text as it is. The second page is of
50,000 cards; the browser's time for it is printed. With --picture the first page is also drawn. The exit status is 1 where something differs, or where the
second page takes more than two seconds of processor time beside an empty one.
"""

import argparse
import html.parser
import resource
import subprocess
import sys
import tempfile
from pathlib import Path

sys.dont_write_bytecode = True
from needs import add_executable, there, tools  # noqa: E402

HOSTILE = [
    "<script>document.title = 'seized'</script>",
    "</script><script>document.title = 'seized'</script>",
    "</pre></details></body><h1 onclick=alert(1)>seized</h1>",
    "<img src=x onerror=\"document.title = 'seized'\">",
    "<style>body { display: none }</style>",
    "<!-- a comment that would not end",
    "&lt;not an element&gt; &amp; &#60;b&#62; &copy &quot;",
    "\" onmouseover=\"document.title='seized'\" x=\"",
    "' onmouseover='alert(1)'",
    "<a href=javascript:alert(1)>a</a>",
    "]]> <![CDATA[ <?php ?> {{7*7}} ${7*7}",
    "\ta tab, and two blanks  after it",
]
ELEMENTS = {"html", "head", "meta", "title", "style", "body", "h1", "h2", "p", "pre", "details", "summary"}
OPEN = ["chromium", "--headless", "--no-sandbox", "--disable-gpu"]


class Seen(html.parser.HTMLParser):
    """The elements of a document and its text."""

    def __init__(self):
        super().__init__()
        self.elements, self.text, self.events = set(), [], []

    def handle_starttag(self, tag, attrs):
        self.elements.add(tag)
        self.events += [name for name, _ in attrs if name.startswith("on")]

    def handle_data(self, data):
        self.text.append(data)


def page(upd, folder, name, runs):
    """The page of a library after some runs."""
    library, file = f"{folder}/{name}.db", Path(folder, f"{name}.html")
    subprocess.run([upd, "init", library], check=True)
    for number, run in enumerate(runs, 1):
        subprocess.run([upd, "run", library, "HERE", str(number), "quick"], input=run, text=True, stdout=subprocess.DEVNULL, check=True)
    file.write_bytes(subprocess.run([upd, "page", library], stdout=subprocess.PIPE, check=True).stdout)
    return file


def document(file):
    """The document that the browser makes of a page, and the processor time that it takes."""
    before = resource.getrusage(resource.RUSAGE_CHILDREN)
    ended = subprocess.run([*OPEN, "--dump-dom", file.as_uri()], capture_output=True, text=True, check=True)
    after = resource.getrusage(resource.RUSAGE_CHILDREN)
    return ended.stdout, after.ru_utime + after.ru_stime - before.ru_utime - before.ru_stime


def differences(upd, folder, picture):
    """What the browser shows otherwise of the hostile library."""
    deck = "*DECK A\n" + "".join(f"{line}\n" for line in HOSTILE)
    file = page(upd, folder, "hostile", [deck, "*IDENT X\n*DELETE A.2\n<b>NEW</b>\n", "*IDENT Y\n*YANK X\n"])
    seen = Seen()
    seen.feed(document(file)[0])
    text = "".join(seen.text)
    wrong = [f"an element {tag}" for tag in sorted(seen.elements - ELEMENTS)] + [f"an attribute {name}" for name in seen.events]
    wrong += [f"not shown as it is: {line}" for line in [*HOSTILE, "<b>NEW</b>"] if line not in text]
    wrong += ["another title"] if "Program library" not in text or text.count("seized") != deck.count("seized") else []
    if picture:
        subprocess.run([*OPEN, f"--screenshot={picture}", "--window-size=1000,1200", file.as_uri()], capture_output=True, check=True)
    return wrong


def main():
    words = argparse.ArgumentParser(description=__doc__.splitlines()[0])
    add_executable(words)
    words.add_argument("--picture", metavar="FILE", help="where a picture of the first page goes")
    given = words.parse_args()
    tools("chromium")
    upd = there(given.executable)
    with tempfile.TemporaryDirectory() as folder:
        wrong = differences(upd, folder, given.picture)
        empty = document(page(upd, folder, "empty", []))[1]
        lines = "".join(f"      CALL SUB{number}(X, Y)\n" for number in range(1999))
        large = page(upd, folder, "large", [f"*DECK D{number}\n{lines}" for number in range(25)])
        more = document(large)[1] - empty
    print(f"{large.name}: 50,000 cards, {more:.1f} s of processor time beside an empty page ({empty:.1f} s)")
    for line in wrong:
        print(line)
    sys.exit(bool(wrong) or more > 2)


if __name__ == "__main__":
    main()
