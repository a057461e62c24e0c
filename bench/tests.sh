#!/bin/sh
# Runs the tests without proofs: `rt try --test` in each crate of tests, or in those that are named. Several crates are run side by side, as many as there
# are processors and memory for, 7 GB each.
#
#     bench/tests.sh [CRATE..]         as bench/tests.sh upd_wire_tests
#
# A crate is compiled first, for some minutes, with nothing to see. Then each test has its line as it ends. A test that `rt` gives up
# after 10 minutes is `out of time` and not failed: run it again on a quiet machine. The last line is `N passed, M failed`.
#
# Exit status: 0 no test failed, 1 a test failed, 3 a crate's tests could not be run or a test ran out of time
set -u
cd "$(dirname -- "$0")/.." || exit 3

# Runs the tests of a crate, and adds to `counts` how many passed, failed and ran out of time, and whether they didn't end.
run() {
    began=$(date +%s)
    (cd "crates/$1" && rt try --test --seconds 600 2>&1) | awk -v crate="$1" -v counts="$counts" '
        function end() {
            if (held == "") return
            if (held ~ /did not end within the time limit/) { sub(/FAILED[^\n]*/, "out of time", held); sub(/\n.*/, "", held); slow++ } else failed++
            print crate ": " held; held = ""
        }
        /^test .* \.\.\. FAILED/ { end(); held = $0; next }
        /^test .* \.\.\. ok/ { end(); passed++; print crate ": " $0; fflush(); next }
        /^test result: / { end(); ended = 1; next }
        held != "" { held = held "\n" $0; next }
        !/^(tests: |run=ended)/ { print crate ": " $0; fflush() }
        END { end(); print crate ": " passed + 0 " passed"; print passed + 0, failed + 0, slow + 0, !ended >> counts }'
    echo "$1: $(($(date +%s) - began)) seconds"
}

# The script calls itself for each crate.
if [ "${1-}" = --into ]; then
    counts=$2
    run "$3"
    exit 0
fi
[ $# -gt 0 ] || set -- $(sed -n 's/^\(upd_[a-z_]*tests\):.*/\1/p' crates.txt)
counts=$(mktemp) && trap 'rm -f "$counts"' EXIT || exit 3
lanes=$(nproc 2>/dev/null || echo 1)
room=$(awk '/^MemAvailable:/ { print int($2 / 7340032) }' /proc/meminfo)
[ "$lanes" -le "${room:-1}" ] || lanes=$((room > 1 ? room : 1))
printf '%s\n' "$@" | xargs -P "$lanes" -n 1 sh bench/tests.sh --into "$counts"
awk '
    { passed += $1; failed += $2; slow += $3; unrun += $4 }
    END {
        if (unrun) print unrun " crates were not run to their end"
        if (slow) print slow " tests ran out of time"
        print passed " passed, " failed " failed"
        exit failed ? 1 : unrun || slow ? 3 : 0
    }' "$counts"
