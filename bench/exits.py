#!/usr/bin/env python3
"""Runs the lasting executable once for each of its exit statuses, and looks at the status, the output and the fault stream.

    python3 bench/exits.py [--executable FILE]

The exit status is 1 where one isn't as docs/protocol.md says.
"""

import argparse
import subprocess
import sys
import tempfile
from pathlib import Path

sys.dont_write_bytecode = True
from needs import add_executable, there  # noqa: E402

USAGE = """\
error: the following required arguments were not provided:
  <MODE>

Usage: upd trial <MODE>

For more information, try '--help'.
"""

# the words, the input, and then the status, the output and the fault stream
CASES = [
    (["--version"], "", (0, "upd 1.0\n", "")),
    (["trial", "quick"], "*DECK A\nONE\n", (0, "", "")),
    (["trial", "full"], "HELLO\n", (1, "", "upd: TextNowhere (9) at 1\n")),
    (["list", "none.db", "a"], "", (1, "", "upd: BadName (5) at 0\n")),
    (["trial"], "", (2, "", USAGE)),
    ([b"\xff"], "", (2, "", "error: the words of the command line can't be read as text\n")),
    (["idents", "none.db"], "", (3, "", "upd: Store (29) at 0\n")),
    (["examine", "none.db"], "", (3, "", "upd: there is no such file: check the path; `upd init` makes a library\n")),
]


def main():
    parser = argparse.ArgumentParser(description=__doc__.splitlines()[0])
    add_executable(parser)
    upd = there(parser.parse_args().executable)
    bad = 0
    with tempfile.TemporaryDirectory() as folder:
        for words, given, wanted in CASES:
            done = subprocess.run([upd, *words], input=given, capture_output=True, text=True, cwd=Path(folder), check=False)
            found = (done.returncode, done.stdout, done.stderr)
            bad += found != wanted
            print(f"ok  {words}: {wanted[0]}" if found == wanted else f"BAD {words}: {found!r}, and not {wanted!r}")
    return 1 if bad else 0


if __name__ == "__main__":
    sys.exit(main())
