#!/bin/sh
# Makes managers by the C library, over a heap that counts, and tells what they take once they are made, and for the list of
# operations of a long lend and what follows it: nothing may be above its bound. To be run after `rt lib` in crates/ffaspm_c.
set -eu
here=$(cd "$(dirname "$0")" && pwd)
work=$(mktemp -d)
trap 'rm -rf "$work"' EXIT
"${CC:-cc}" -std=c11 -O2 -Wall -Wextra -Werror -I "$here/../include" -I "$here/../examples/c" "$here/counted_heap.c" \
    "$here/room.c" "${1:-$here/../crates/ffaspm_c/out/libffaspm_c.a}" -o "$work/room"
"$work/room"
