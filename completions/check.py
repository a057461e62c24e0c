#!/usr/bin/env python3
"""Compares the completions and the man page with what the executable says of itself.

    python3 completions/check.py [--executable FILE]

Each of them has the commands of `upd --help`, and no others. `upd help` writes what `--help` writes. The man page has each command's words as its
`--help` has them, and the faults that `upd explain` explains, in order of number. It has the words of each installed script as its usage has them. groff,
which is required, formats it without a warning. bash, and fish where it is installed, are asked what they complete. The default executable is
crates/upd/out/upd. The exit status is 1 where something differs.
"""

import argparse
import re
import shutil
import subprocess
import sys
import tempfile
from pathlib import Path

ROOT = Path(__file__).resolve().parent.parent


def said(*words):
    return subprocess.run(words, capture_output=True, check=True, text=True).stdout


MODES = ["full", "normal", "quick"]

# The scripts that are installed, and the places of their words.
SCRIPTS = {"upd-bring": "bring.sh", "upd-tree": "tree.sh", "upd-edit": "edit.sh", "upd-put": "put.sh"}
WORDS = {"upd-bring library.db ": [], "upd-bring --skip --list ": ["library.db"], "upd-tree library.db ": [], "upd-edit library.db LYON ": [],
         "upd-edit --mode ": MODES, "upd-edit --mode quick ": ["library.db"], "upd-edit --set ": [], "upd-edit --list ": ["library.db"],
         "upd-put -m ": [], "upd-put library.db ": [], "upd-put library.db LYON ": ["library.db"],
         "upd-put library.db LYON LIST folder new.c ": ["library.db"]}

# Asks bash for the completions of the words after its script, the last of which is being typed.
BASH = 'source "$0"; COMP_WORDS=("$@"); COMP_CWORD=$(($# - 1)); %s; printf "%%s\\n" "${COMPREPLY[@]}"'


def usage(script):
    """The words of a script, as its usage has them."""
    return re.search(r'say "usage: \S+ ([^<";]+?) ?[<";]', (ROOT / "examples" / SCRIPTS[script]).read_text())[1]


def completed(folder, shell, line):
    """The completions of a line in a folder, by name, with options only where one is typed."""
    if shell == "bash":
        words = ["bash", "--norc", "-c", BASH % ("_upd_script" if line.startswith("upd-") else "_upd"), ROOT / "completions/upd.bash", *line.split(" ")]
    else:
        words = ["fish", "--no-config", "-c", f"source {ROOT}/completions/upd.fish; complete -C'{line}'"]
    lines = subprocess.run(words, cwd=folder, capture_output=True, check=True, text=True).stdout.splitlines()
    return sorted(name for name in (found.split("\t")[0] for found in lines) if name and (line.endswith(" -") or not name.startswith("-")))


def asked(shell, commands):
    """Lines that a shell completes wrongly."""
    wanted = {"upd ": sorted(commands), "upd ser": ["serve", "serve-local"], "upd trial ": MODES, "upd run library.db LYON 1 ": MODES,
              "upd correct-parts library.db FIX LYON 1 ": MODES, "upd try library.db ": MODES, "upd try-at library.db ": MODES,
              "upd run library.db LYON ": [], "upd explain Set": ["Settled"], "upd help ": sorted(commands)}
    wanted |= {f"upd {command} ": ["library.db"] for command in commands if command not in ("trial", "explain", "help")}
    wanted |= {f"upd {command} library.db ": ["library.db"] for command in ("serve-local", "backup", "compact")}
    wanted |= {f"{script} ": ["library.db"] for script in SCRIPTS} | WORDS
    wanted |= {f"{script} -": sorted(re.findall(r"\[(--?\w+)", usage(script))) for script in SCRIPTS}
    with tempfile.TemporaryDirectory() as folder:
        (Path(folder) / "library.db").touch()
        found = {line: completed(folder, shell, line) for line in wanted}
    return [f"{shell}, {line!r}: {found[line]}, and not {names}" for line, names in wanted.items() if found[line] != names]


def explained(upd):
    """Each fault that `upd explain` explains by its number, as NAME (NUMBER)."""
    texts = (subprocess.run([upd, "explain", str(number)], capture_output=True, check=False, text=True).stdout for number in range(1, 100))
    return [text.split(":")[0] for text in texts if text]


def groff_says():
    """The warnings of groff on the man page, in lines."""
    if not shutil.which("groff"):
        return ["groff is not installed, so the man page was not checked"]
    return subprocess.run(["groff", "-man", "-Tutf8", "-ww", ROOT / "man/upd.1"], capture_output=True, check=False, text=True).stderr.splitlines()


def main():
    words = argparse.ArgumentParser(description=__doc__.splitlines()[0])
    words.add_argument("--executable", metavar="FILE", type=Path, default=ROOT / "crates/upd/out/upd",
                       help="the executable of upd (default: crates/upd/out/upd)")
    upd = words.parse_args().executable
    if not upd.is_file():
        sys.exit(f"{upd} isn't there: `rt run` in crates/upd makes it")
    upd = upd.resolve()
    commands = re.findall(r"^  ([a-z-]+) ", said(upd, "--help").split("Options:")[0], re.M)
    page = (ROOT / "man/upd.1").read_text()
    synopsis = dict(re.findall(r"^\.B upd ([a-z-]+)\n\.I ([A-Z ]+)$", page, re.M))
    bash = (ROOT / "completions/upd.bash").read_text()
    zsh = (ROOT / "completions/_upd").read_text()
    fish = (ROOT / "completions/upd.fish").read_text()
    found = {
        "man/upd.1, synopsis": re.findall(r"^\.B upd ([a-z-]+)\n\.R?I ", page, re.M),
        "man/upd.1, commands": re.findall(r'^\.B[IR] ([a-z-]+) " ', page, re.M),
        "upd.bash": re.search(r'commands="([a-z -]+)"', bash)[1].split(),
        "_upd": re.findall(r"^        '([a-z-]+):", zsh, re.M),
        "upd.fish": re.findall(r"-a ([a-z-]+) -d", fish),
    }
    wrong = [where for where, names in found.items() if names != commands]
    if said(upd, "help") != said(upd, "--help"):
        wrong.append("upd help: not what upd --help writes")
    for command in [name for name in commands if name != "help"]:
        if said(upd, "help", command) != said(upd, command, "--help"):
            wrong.append(f"upd help {command}: not what upd {command} --help writes")
        operands = " ".join(re.findall(r"<([A-Z]+)>", re.search(r"Usage: \S+ .*", said(upd, command, "--help"))[0]))
        if synopsis.get(command) != operands:
            wrong.append(f"man/upd.1, {command}: {synopsis.get(command)}, and not {operands}")
    written = {name.replace("\\-", "-"): re.sub(r"\\(f[RBI]|)", "", words).replace('"', "").strip()
               for name, words in re.findall(r"^\.BR (upd\\-[a-z]+) (.*)$", page, re.M)}
    for script in SCRIPTS:
        if written.get(script) != usage(script):
            wrong.append(f"man/upd.1, {script}: {written.get(script)}, and not {usage(script)}")
    faults = explained(upd)
    listed = [f"{name} ({number})" for name, number in re.findall(r'"(\w+)" " \((\d+)\)', page)]
    if listed != faults:
        wrong.append(f"man/upd.1, faults: {listed}, and not {faults}")
    shells = [shell for shell in ("bash", "fish") if shutil.which(shell)]
    wrong += [line for shell in shells for line in asked(shell, commands)]
    wrong += groff_says()
    for line in wrong:
        print(line)
    print(f"{len(commands)} commands, {len(faults)} faults, {' and '.join(shells)} asked, {len(wrong)} differences")
    sys.exit(bool(wrong))


if __name__ == "__main__":
    main()
