#!/bin/sh
# What the table edit takes and how long it is, as the tables of docs/BENCHMARKS.md: what a manager has of the heap beside the words of its tables, what a long
# lend asks for (checks/room.sh, of the library in crates/ffaspm_c/out or of the one named), and lines that are not blank. To be run after `rt lib` in crates/ffaspm_c.
set -eu
top=$(cd "$(dirname "$0")/.." && pwd)
lines() { (cd "$top" && git ls-files "crates/$1/$2" | grep "\.$3\$" | grep -v /tests | xargs cat | grep -c '[^ ]'); }

echo "Of commit $(git -C "$top" log -1 --format='%h "%s"'), by \`bench/house.sh\`:"
echo
echo "| What | Figure |"
echo "|---|---|"
"$top/checks/room.sh" "$@" | sed -n \
    -e 's/^\(64 partitions.*\): \([0-9]*\) bytes of words, \([0-9]*\) beside them.*; \([0-9]*\) at most.*/| \1 | \3 bytes beside \2 of words, and \4 at most while it is made |/p' \
    -e 's/^a \(.*\) of 512 ranges: \([0-9]*\) operations;.*which has \([0-9]*\), bound.*/| a \1 of 512 ranges of a page in two chunks | \2 operations, in a list of \3 bytes |/p'
echo
echo "| Crate | Code | Definitions | Proof |"
echo "|---|---|---|---|"
for crate in pool stage2 marks; do
    echo "| $crate | $(lines $crate src rt) | $(lines $crate specs antt) | $(lines $crate proofs antt) |"
done

# By subject: names of files of src, and of files and folders of proofs, without their endings.
subject() {
    code=$(cd "$top" && git ls-files "crates/$2/src" | grep -E "/($3)\.rt$" | xargs -r cat | grep -c '[^ ]' || true)
    proof=$(cd "$top" && git ls-files "crates/$2/proofs" | grep -v /tests/ | grep -E "/proofs/($4)(/|\.antt$)" | xargs -r cat | grep -c '[^ ]' || true)
    echo "| $1 | $code | $proof |"
}

echo
echo "| What it is for | Code | Proof |"
echo "|---|---|---|"
subject "raw memory" pool 'cells|raw_pool' 'cells|CellMemory|CellSharing|WalkNames'
subject "the store: words, counts, shares and the list of operations" pool 'block|identifiers|image|lib|list_pool|log|looks|operation|places|replace|runs|stretch|table_mem|table_pool|word_range|word_store' 'block|identifiers|image|list_pool|looks|places|replace|runs|stretch|table_pool|Alone|Applying|Contents|Count|FirstRuns|Gaps|Held|Kept|Lib|Names|Nonzero|Recorded|Replaced|Rows|RunWords|Shares|Stretches|Turned|Within|Words|Written|Wrote'
subject "the edit, level by level, and boot" stage2 'fill|layout|level[123]|lib|memory|outcome|place|site|table_page|tables|views' 'Editing|Lib|Names|layout|level[123]|memory|outcome|site|tables'
subject "tables as trees" stage2 'none' 'Tree'
subject "what walkers see on the way" stage2 'moments' 'Walkers|moments'
subject "tables and operations that an edit needs: plan and bounds" stage2 'bound|plan' 'Counting|bound|plan'
subject "runs by chunks and gigabytes" stage2 'parts' 'Runs|parts'
subject "the reader" stage2 'alike|cursor|entries|read|reader|source|table_entry|walked' 'Reading|alike|cursor|entries|reader|source'
