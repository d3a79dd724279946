#!/bin/sh
# Makes a million donations by the C library, over a heap that counts: after the first hundred thousand it must not grow
# by more than a twentieth, and a donation must not take longer. To be run after `rt lib` in crates/ffaspm_c.
set -eu
here=$(cd "$(dirname "$0")" && pwd)
work=$(mktemp -d)
trap 'rm -rf "$work"' EXIT
"${CC:-cc}" -std=c11 -O2 -Wall -Wextra -Werror -I "$here/../include" -I "$here/../examples/c" "$here/counted_heap.c" \
    "$here/donations.c" "${1:-$here/../crates/ffaspm_c/out/libffaspm_c.a}" -o "$work/donations"
"$work/donations"
