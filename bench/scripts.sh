#!/bin/sh
# Times script lines by the built program (`rt run` in crates/ffaspm): FFA_ID_GET, the four calls of a lend's
# life and the release between them, and `maps` of 64 partitions. The least of 15 runs, less an empty script's. Then what
# `audit`, `owners`, `maps` and `tables` take beside 32,768 ranges, live and donated, less the script that makes them so.
set -eu
here=$(cd "$(dirname "$0")" && pwd)
program=${1:-$here/../crates/ffaspm/out/ffaspm}
common=$here/../examples/common/manifest.toml
work=$(mktemp -d)
trap 'rm -rf "$work"' EXIT

# least MANIFEST SCRIPT: nanoseconds of the quickest run.
least() {
    best=
    for _ in 1 2 3 4 5 6 7 8 9 10 11 12 13 14 15; do
        begin=$(date +%s%N)
        "$program" run "$1" "$2" > /dev/null
        took=$(($(date +%s%N) - begin))
        if [ -z "$best" ] || [ "$took" -lt "$best" ]; then best=$took; fi
    done
    echo "$best"
}

# tell NAME MANIFEST SCRIPT LINES
tell() {
    nanoseconds=$(($(least "$2" "$3") - $(least "$2" "$work/empty")))
    echo "$1: $((nanoseconds / $4)) ns a line, $((1000000000 * $4 / nanoseconds)) lines a second"
}

: > "$work/empty"
awk 'BEGIN { for (i = 0; i < 200000; i++) print "call 8001 84000069" }' > "$work/id_get"
awk 'BEGIN {
    print "call 8001 84000066 90000000 90001000 1"
    print "call 8002 84000066 b0000000 b0001000 1"
    for (i = 1; i <= 20000; i++) {
        handle = sprintf("8001%08x", i)
        print "lend 8001 0 8002:02 80001000+1"
        print "retrieve 8002 " handle " 8001 0 2 02"
        print "call 8002 84000065"
        print "relinquish 8002 " handle
        print "reclaim 8001 " handle
    }
}' > "$work/life"
awk 'BEGIN {
    print "pool = 0x40000000"
    for (i = 1; i <= 64; i++) printf "[[partition]]\nid = 0x%x\nquota = 4\n", 32768 + i
    for (i = 1; i <= 64; i++) {
        printf "[[region]]\nbase = 0x%x\npages = 16\nkind = \"normal\"\nowner = 0x%x\n", 2147483648 + 65536 * i, 32768 + i
        printf "grants = [ { id = 0x%x, data = \"rw\", exec = false } ]\n", 32768 + i
    }
}' > "$work/64.toml"
awk 'BEGIN { for (i = 0; i < 64000; i++) printf "maps %x\n", 32769 + i % 64 }' > "$work/maps"

# ranges KIND: 32,768 single pages, with a page between them, by 32 sends of each of two partitions.
ranges() {
    awk -v kind="$1" 'BEGIN {
        print "call 8001 84000066 c0000000 c0003000 3"
        print "call 8002 84000066 d0000000 d0003000 3"
        for (p = 1; p <= 2; p++) for (i = 0; i < 32; i++) {
            line = kind " 800" p " 0 800" 3 - p (kind == "lend" ? ":02 " : ":00 ")
            for (j = 0; j < 512; j++)
                line = line sprintf("%s%x+1", j ? "," : "", (p == 1 ? 2147483648 : 2684354560) + 8192 * (512 * i + j))
            print line
            if (kind == "donate") {
                print "retrieve 800" 3 - p " 800" p sprintf("%08x", i + 1) " 800" p " 0 3 00"
                print "call 800" 3 - p " 84000065"
            }
        }
    }'
}

# beside NAME SCRIPT WORDS: a line, made 20 times behind a script.
beside() {
    awk -v words="$3" '{ print } END { for (i = 0; i < 20; i++) print words }' "$2" > "$work/beside"
    nanoseconds=$(($(least "$work/ranges.toml" "$work/beside") - $(least "$work/ranges.toml" "$2")))
    echo "$1: $((nanoseconds / 20000)) microseconds a line"
}

awk 'BEGIN {
    print "pool = 0"
    for (p = 1; p <= 2; p++) {
        printf "[[partition]]\nid = 0x800%d\nquota = 200\n", p
        printf "[[region]]\nbase = 0x%s0000000\npages = 32768\nkind = \"normal\"\nowner = 0x800%d\n", p == 1 ? "8" : "a", p
        printf "grants = [ { id = 0x800%d, data = \"rw\", exec = false } ]\n", p
        printf "[[region]]\nbase = 0x%s0000000\npages = 6\nkind = \"normal\"\nowner = 0x800%d\n", p == 1 ? "c" : "d", p
        printf "grants = [ { id = 0x800%d, data = \"rw\", exec = false } ]\n", p
    }
}' > "$work/ranges.toml"
ranges lend > "$work/live"
ranges donate > "$work/donated"

tell 'FFA_ID_GET' "$common" "$work/id_get" 200000
tell 'a line of the life of a lend' "$common" "$work/life" 100000
tell 'maps of 64 partitions' "$work/64.toml" "$work/maps" 64000
for words in audit owners 'maps 8001' 'tables 8001'; do
    beside "$words beside 32,768 live ranges" "$work/live" "$words"
    beside "$words beside 32,768 donated ranges" "$work/donated" "$words"
done
