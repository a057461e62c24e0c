#!/usr/bin/env python3
"""Measures libraries at their limits: the processor time of tests of crates/upd_tests and crates/upd_store_tests.

    python3 bench/apply.py [--times N]

`rt test` in those crates makes their executables, crates/NAME/out/NAME_tests. Each test is run N times (5 where none is said), in a process of its
own, and the least of its times is printed, since other work on the machine only adds to them. The exit status is 1 where a run is past its budget.
"""

import argparse
import os
import subprocess
import sys

sys.dont_write_bytecode = True
from needs import tests_of  # noqa: E402

TESTS = {
    ("upd_tests", "library_limits::holds_50000_cards"): "50,000 cards in 25 runs",
    ("upd_tests", "library_limits::takes_1999_corrections_on_50000_cards"): "the same, and a run of 1,999 one-card corrections on them",
    ("upd_tests", "library_limits::holds_200000_entries"): "200,000 entries in 100 lines, refused once and accepted once",
    ("upd_tests", "library_limits::holds_100000_targets"): "4,000 idents and 100,000 targets on 25 yank cards, refused once and accepted once",
    ("upd_tests", "library_limits::introduces_65536_idents"): "a library of 65,535 purged idents from its rows, and the last two",
    ("upd_tests", "library_limits::follows_4000_common_decks_in_one_chain"): "4,000 common decks in one chain, and the choice of a normal compile file",
    ("upd_store_tests", "changes_of_runs::holds_48000_cards"): "48,000 cards in 24 runs",
    ("upd_store_tests", "changes_of_runs::takes_1998_texts_at_one_place_of_48000_cards"): "the same, and a run of 1,998 texts at one place",
    ("upd_store_tests", "changes_of_runs::purges_40000_of_48000_cards"): "the same, and a purge of 40,000 cards",
}

# A run takes the time of its test, less that of the test without it. Budgets are seconds of processor time.
CHANGES = "changes_of_runs::holds_48000_cards"
BUDGETS = [
    ("1,999 corrections", "library_limits::takes_1999_corrections_on_50000_cards", "library_limits::holds_50000_cards", 0.04),
    ("1,998 texts at one place", "changes_of_runs::takes_1998_texts_at_one_place_of_48000_cards", CHANGES, 0.1),
    ("a purge of 40,000 cards", "changes_of_runs::purges_40000_of_48000_cards", CHANGES, 0.3),
]


def measured(crate, test):
    """Processor seconds of one run."""
    program = tests_of(crate)
    child = subprocess.Popen([program, test], stdout=subprocess.DEVNULL)
    _, status, usage = os.wait4(child.pid, 0)
    if status != 0:
        sys.exit(f"{program} {test}: status {status}")
    return usage.ru_utime + usage.ru_stime


def main():
    parser = argparse.ArgumentParser(description=__doc__.splitlines()[0])
    parser.add_argument("--times", metavar="N", type=int, default=5, help="processes of each test (default: 5)")
    given = parser.parse_args()
    least = {}
    for (crate, test), what in TESTS.items():
        least[test] = min(measured(crate, test) for _ in range(given.times))
        print(f"{least[test] * 1000:8.1f} ms  {what}")
    late = False
    for what, test, before, budget in BUDGETS:
        alone = least[test] - least[before]
        late = late or alone > budget
        print(f"{what}: {alone * 1000:.3f} ms (budget {budget * 1000:g} ms)")
    return 1 if late else 0


if __name__ == "__main__":
    sys.exit(main())
