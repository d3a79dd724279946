#!/bin/sh
# Tries the wrong bodies that the gate leaves out, on a copy: of the crates named, or of all. Each must be refused.
set -eu
root=$(cd "$(dirname "$0")/.." && pwd)
work=$(mktemp -d)
trap 'rm -rf "$work"' EXIT
test $# -gt 0 || set -- $(ls "$root/checks/wrong-bodies")
cp -R "$root/crates" "$root/crates.txt" "$root/HANDLES" "$work"
for name do
    rm "$work/crates/$name/must-fail"/*.edit
    cp "$root/checks/wrong-bodies/$name"/*.edit "$work/crates/$name/must-fail"
done
cd "$work"
rt must-fail "$@"
