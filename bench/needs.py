"""What the scripts of this folder need. Where something isn't there, a script ends and says what is missing."""

import shutil
import sqlite3
import subprocess
import sys
import time
from pathlib import Path

ROOT = Path(__file__).resolve().parent.parent
UPD = ROOT / "crates/upd/out/upd"


def add_executable(words):
    """The word that names the executable, for a parser."""
    words.add_argument("--executable", metavar="FILE", type=Path, default=UPD, help="the executable of upd (default: crates/upd/out/upd)")


def there(file, maker="`rt run` in crates/upd"):
    """The whole path of an executable."""
    if not Path(file).is_file():
        sys.exit(f"{file} isn't there: {maker} makes it")
    return str(Path(file).resolve())


def tests_of(crate):
    """The whole path of the executable of a crate's tests."""
    return there(ROOT / f"crates/{crate}/out/{crate}_tests", f"`rt test` in crates/{crate}")


def without_sums(file):
    """Makes a library anew of its rows, without sums on its pages, which a plain SQLite spoils when it writes."""
    old = sqlite3.connect(file)
    # `iterdump` lists tables by their names, and a library has them in one order.
    made = old.execute("SELECT name, sql FROM sqlite_master WHERE type = 'table' ORDER BY rowid").fetchall()
    rows = {name: old.execute(f"SELECT * FROM {name} ORDER BY rowid").fetchall() for name, _ in made}
    old.close()
    for end in ("", "-wal", "-shm"):
        Path(f"{file}{end}").unlink(missing_ok=True)
    new = sqlite3.connect(file)
    for name, sql in made:
        new.execute(sql)
        for row in rows[name]:
            new.execute(f"INSERT INTO {name} VALUES ({', '.join('?' * len(row))})", row)
    new.commit()
    new.close()


def tools(*names):
    """Looks for tools on the path."""
    missing = [name for name in names if not shutil.which(name)]
    if missing:
        sys.exit(f"not on the path: {', '.join(missing)}")


def serve(upd, file, address, log):
    """`upd serve` for a million connections, with a file as its standard error: its process and its port, once it listens."""
    with log.open("wb") as output:
        process = subprocess.Popen([upd, "serve", file, address, "1000000"], stderr=output)
    while not log.read_bytes().endswith(b"\n") and process.poll() is None:
        time.sleep(0.01)
    line = log.read_text()
    if not line.startswith("upd: listening on "):
        process.kill()
        sys.exit(f"upd serve says, in place of where it listens: {line!r}")
    return process, int(line.splitlines()[0].rsplit(":", 1)[1])
