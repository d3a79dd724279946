#!/bin/sh
# Makes a hundred thousand drawn calls by the C library, over a heap of the bytes that it says that it needs at most: none
# may be answered out of memory. To be run after `rt lib` in crates/ffaspm_c.
set -eu
here=$(cd "$(dirname "$0")" && pwd)
work=$(mktemp -d)
trap 'rm -rf "$work"' EXIT
"${CC:-cc}" -std=c11 -O2 -Wall -Wextra -Werror -I "$here/../include" -I "$here/../examples/c" "$here/counted_heap.c" \
    "$here/bound.c" "${1:-$here/../crates/ffaspm_c/out/libffaspm_c.a}" -o "$work/bound"
"$work/bound"
