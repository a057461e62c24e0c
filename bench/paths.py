"""What can be at a path that `upd examine` gets: each situation of docs/protocol.md, rule 10.88, and a log beside a library."""

import os
import re
import shutil
import sqlite3
import subprocess
import time
from pathlib import Path

from needs import without_sums

NOBODY = 65534
LOG = "log: keep FILE-wal with the file, it may have commits that the file lacks\n"


def as_nobody():
    """Has a command run without the rights of root, which may read and write all files."""
    if os.geteuid() == 0:
        os.setgroups([])
        os.setgid(NOBODY)
        os.setuid(NOBODY)


def said(upd, file, plain=False):
    """What `upd examine` says: the status, the output and the fault stream; without the rights of root where `plain` says so."""
    ended = subprocess.run([upd, "examine", file], capture_output=True, text=True, check=False, preexec_fn=as_nobody if plain else None)
    return ended.returncode, ended.stdout, ended.stderr


class Paths:
    """Files in a folder of their own, each in one situation."""

    def __init__(self, upd, folder):
        self.upd, self.folder, self.bad, self.count = upd, folder, 0, 0

    def path(self, name):
        return self.folder / name

    def library(self, name):
        """A library of one deck with two cards, by one run."""
        file = self.path(name)
        subprocess.run([self.upd, "init", file], check=True)
        subprocess.run([self.upd, "run", file, "LYON", "1", "full"], input=b"*DECK A\nONE\n", stdout=subprocess.DEVNULL, check=True)
        return file

    def is_said(self, file, words, plain=False, more=""):
        """A path is in a situation, which these words name, before more lines; and a file is left as it was."""
        before = Path(file).read_bytes() if Path(file).is_file() else None
        status, output, faults = said(self.upd, file, plain)
        line, end, rest = faults.partition("\n")
        right = status == 3 and output == "" and line.startswith("upd: ") and words in line and end == "\n" and rest == more
        after = Path(file).read_bytes() if Path(file).is_file() else None
        self.judge(right and before == after, words, (status, output, faults, before == after))

    def is_sound(self, what, file, before="", plain=False):
        """A library is sound: one deck, two cards, one run."""
        self.judge_sound(what, file, f"{before}sound: decks 1, cards 2, runs 1", plain)

    def judge_sound(self, what, file, line, plain=False):
        """A library is sound, with this line, and then the bytes of its replies and of its file."""
        status, output, faults = said(self.upd, file, plain)
        size = re.fullmatch(re.escape(line) + r", replies [1-9]\d*, file (\d+)\n", output)
        self.judge(status == 0 and size and int(size[1]) == Path(file).stat().st_size and not faults, what, (status, output, faults))

    def judge(self, right, what, got):
        self.count += 1
        if not right:
            self.bad += 1
            print("BAD path", what, got)


def try_no_database(paths):
    """What is no database of SQLite."""
    paths.is_said(paths.path("none.db"), "there is no such file")
    paths.is_said(paths.path("none") / "none.db", "there is no such file")
    paths.judge(not paths.path("none.db").exists(), "no file is made", "")
    paths.is_said(paths.folder, "this is a folder")
    paths.is_said("/dev/null", "this is no regular file")
    for name, text, words in [("empty", b"", "the file is empty"), ("short", b"*DECK A\n", "not a database"), ("text", b"C A REMARK\n" * 90, "not a database")]:
        paths.path(name).write_bytes(text)
        paths.is_said(paths.path(name), words)


def try_rights(paths):
    """Files that the user may not read, or not write, alone or by their folder; and a file with two names."""
    file = paths.library("rights.db")
    for log in paths.folder.glob("rights.db-*"):
        log.unlink()
    os.chmod(file, 0o600)
    if os.geteuid() == 0:
        paths.is_said(file, "no permission to read it", plain=True)
    os.chmod(file, 0o444)
    paths.is_said(file, "it can't be written", plain=True)
    os.chmod(file, 0o666)
    if os.geteuid() == 0:
        paths.is_said(file, "it can't be opened", plain=True)
    link = paths.path("second.db")
    os.link(file, link)
    paths.is_said(file, "a hard link")
    link.unlink()
    link.symlink_to(file)
    paths.is_sound("a symbolic link", link)
    paths.is_sound("a library with the rights that it needs", file)


def try_use(paths):
    """A library that a spool has open."""
    file = paths.library("busy.db")
    with subprocess.Popen([paths.upd, "spool", file], stdin=subprocess.PIPE, stdout=subprocess.PIPE) as spool:
        run = b"*DECK B\nONE\n"
        spool.stdin.write(b"RUN LYON 2 full %d\n%s\n" % (len(run), run))
        spool.stdin.flush()
        spool.stdout.readline()
        paths.is_said(file, "it is in use")
        spool.stdin.close()
    paths.judge_sound("after the spool", file, "sound: decks 2, cards 4, runs 2")


def logged(paths, name):
    """A library whose last run is only in its log, since the spool was killed."""
    file = paths.path(name)
    subprocess.run([paths.upd, "init", file], check=True)
    with subprocess.Popen([paths.upd, "spool", file], stdin=subprocess.PIPE, stdout=subprocess.PIPE) as spool:
        run = b"*DECK A\nONE\n"
        spool.stdin.write(b"RUN LYON 1 full %d\n%s\n" % (len(run), run))
        spool.stdin.flush()
        spool.stdout.readline()
        spool.kill()
    return file, paths.path(f"{name}-wal")


def try_log(paths):
    """A log with a commit, beside its library and alone. It stays. And a named pipe, and a library, in place of a log."""
    file, _ = logged(paths, "log.db")
    before = file.read_bytes()
    for _ in range(2):
        paths.is_sound("a log with frames", file, before=LOG)
        time.sleep(0.1)
    paths.judge(file.read_bytes() == before, "the file is left as it was beside a log", "")
    file.rename(paths.path("moved.db"))
    paths.is_said(file, "beside a log")
    file = paths.path("pipe.db")
    os.mkfifo(paths.path("pipe.db-wal"))
    ended = subprocess.run([paths.upd, "init", file], capture_output=True, text=True, check=False)
    right = (ended.returncode, ended.stderr) == (3, "upd: Store (29) at 0\n") and not file.exists()
    paths.judge(right, "init beside a named pipe", ended)
    paths.is_said(file, "FILE-wal, can't be opened")
    other, file = paths.library("taken.db-wal"), paths.path("taken.db")
    before = other.read_bytes()
    file.write_bytes(before)
    paths.is_said(file, "FILE-wal, can't be opened")
    paths.judge(other.read_bytes() == before, "a library in place of a log is left as it was", "")


def try_folders(paths):
    """A folder that everybody may write, and one that is sticky too."""
    place = paths.path("open")
    place.mkdir()
    file = paths.library("open/open.db")
    os.chmod(place, 0o777)
    paths.is_said(file, "everybody may write its folder")
    paths.is_said(place / "new.db", "everybody may write its folder")
    ended = subprocess.run([paths.upd, "init", "new.db"], cwd=place, capture_output=True, text=True, check=False)
    right = (ended.returncode, ended.stderr) == (3, "upd: Store (29) at 0\n") and not (place / "new.db").exists()
    paths.judge(right, "init in such a folder", ended)
    os.chmod(place, 0o1777)
    paths.is_sound("a sticky folder", file)


def try_owners(paths):
    """A log with a commit of another user, and then of the user at work, of the file's owner, and of root; an empty file of another user. Only root can
    change owners."""
    if os.geteuid() != 0:
        return
    file, log = logged(paths, "owners.db")
    os.chmod(file, 0o666)
    os.chmod(log, 0o666)
    os.chown(log, NOBODY, NOBODY)
    paths.is_said(file, "is another user's")
    paths.is_sound("a log of the user at work", file, before=LOG, plain=True)
    os.chown(file, NOBODY, NOBODY)
    paths.is_sound("a log of the file's owner", file, before=LOG)
    os.chown(log, 0, 0)
    paths.is_sound("a log of root", file, before=LOG, plain=True)
    empty = paths.path("owners")
    empty.write_bytes(b"")
    os.chown(empty, NOBODY, NOBODY)
    paths.is_said(empty, "the file is empty, and another user's")


def try_damage(paths):
    """Pages that are no pages, and a file that was cut."""
    file = paths.library("damaged.db")
    pages = file.read_bytes()
    file.write_bytes(pages[:4096] + b"\xff" * 512 + pages[4608:])
    paths.is_said(file, "damaged", more="upd: pages with a wrong sum: 2\n")
    file.write_bytes(pages[:-4096])
    paths.is_said(file, "damaged")


def try_schemas(paths):
    """Other schemas, made from the current one as they differ from it."""
    first = ["DROP TABLE settled", "DROP TABLE states", "DROP TABLE counts", "UPDATE meta SET v = 1"]
    second = ["DROP TABLE settled", "UPDATE meta SET v = 2"]
    for name, texts, words in [("schema1.db", first, "an older schema"), ("schema2.db", second, "an older schema"),
                               ("newer.db", ["UPDATE meta SET v = 4"], "a newer schema"), ("other.db", ["DROP TABLE settled"], "changed or are missing")]:
        file = paths.library(name)
        change(file, texts)
        paths.is_said(file, words)
    migrated = paths.path("migrated.db")
    shutil.copyfile(paths.path("schema2.db"), migrated)
    subprocess.run([paths.upd, "migrate", migrated], check=True)
    paths.is_sound("a migrated library", migrated)
    file = paths.path("another.db")
    change(file, ["CREATE TABLE note (id INTEGER PRIMARY KEY) STRICT"])
    paths.is_said(file, "a database")


def change(file, texts):
    """Changes a database by hand."""
    without_sums(file)
    db = sqlite3.connect(file, isolation_level=None)
    for text in texts:
        db.execute(text)
    db.close()


def try_paths(upd, folder):
    """All situations. Returns how many are not as they are defined."""
    place = folder / "paths"
    place.mkdir()
    os.chmod(place, 0o755)
    command = place / "upd"
    shutil.copyfile(upd, command)
    os.chmod(command, 0o755)
    paths = Paths(str(command), place)
    for part in (try_no_database, try_rights, try_use, try_log, try_folders, try_owners, try_damage, try_schemas):
        part(paths)
    print(f"{paths.count} situations of a path, {paths.bad} of them wrong")
    return paths.bad
