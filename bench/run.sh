#!/bin/sh
# run.sh NAME CRATES: proves, builds and runs NAME.rt.in, which uses these crates of the repository and
# thiserror. It does so in a folder of its own, so that the gate has no timed part; the program is no .rt
# file here, since the gate reads those, and neither is the proof of its function `time`, NAME.time.in.
set -e
top=$(cd "$(dirname "$0")/.." && pwd)
name=$1
work=$(mktemp -d)
trap 'rm -rf "$work"' EXIT
mkdir -p "$work/crates/$name/src"

# Copies crates and what they stand on.
copy() {
    for crate in "$@"; do
        if [ -d "$top/crates/$crate" ] && [ ! -e "$work/crates/$crate" ]; then
            cp -r "$top/crates/$crate" "$work/crates/"
            line=$(grep "^$crate:" "$top/crates.txt")
            echo "$line" >> "$work/crates.txt"
            copy ${line#*:}
        fi
    done
}

copy $2
cp "$top/HANDLES" "$work/"
cp "$top/bench/$name.rt.in" "$work/crates/$name/src/main.rt"
if [ -e "$top/bench/$name.time.in" ]; then
    mkdir -p "$work/crates/$name/proofs/time"
    cp "$top/bench/$name.time.in" "$work/crates/$name/proofs/time/Invariants.antt"
fi
echo "$name: $2 thiserror" >> "$work/crates.txt"
git init -q "$work"
cd "$work/crates/$name"
rt run 2> "$work/log" || { cat "$work/log" >&2; exit 1; }
