#!/bin/sh
# Refuses each allocation of tests of the gate in turn. Where a call of theirs is refused, those of maps compare all numbers,
# the blocks and the spare ones with what was there, and that of a send three translations, what is live and what was
# written; then they make the call again. Each must pass, or end for want of memory where the test itself finds none. To
# be run after `rt test` in crates/ledger_tests and crates/call_tests.
set -eu
here=$(cd "$(dirname "$0")" && pwd)
work=$(mktemp -d)
trap 'rm -rf "$work"' EXIT
"${CC:-cc}" -std=gnu11 -O1 -Wall -Wextra -shared -fPIC "$here/refuse.c" -o "$work/refuse.so"

# run PROGRAM TEST NUMBER: the test with that allocation refused.
run() {
    REFUSE=$3 LD_PRELOAD=$work/refuse.so "$1" "$2" > "$work/text" 2>&1 9> "$work/met"
}

# refuse CRATE TEST: all allocations of the test, in turn.
refuse() {
    program=$here/../crates/$1/out/$1_tests
    test -x "$program" || { echo "checks/refused_calls: rt test in crates/$1 first" >&2; exit 2; }
    count=0
    ended=0
    while status=0; run "$program" "$2" $((count + 1)) || status=$?; test -s "$work/met"; do
        count=$((count + 1))
        test "$status" -ne 0 || continue
        ended=$((ended + 1))
        grep -q 'OutOfMemory\|out of memory' "$work/text" || {
            echo "checks/refused_calls: $2: allocation $count: status $status" >&2
            cat "$work/text" >&2
            exit 1
        }
    done
    test "$count" -gt 0 && test "$count" -gt "$ended"
    echo "$2: $count allocations refused in turn, $ended of them ended the test"
}

refuse ledger_tests page_map::runs_that_cross_blocks_are_put
refuse ledger_tests page_map::borders_of_blocks_part_nothing_that_came_back
refuse ledger_tests page_map::blocks_that_become_short_are_joined
refuse call_tests manager::lends_after_a_refused_growth
echo 'passed'
