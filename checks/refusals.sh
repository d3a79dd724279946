#!/bin/sh
# Refuses each allocation of the program in turn, over six scripts. It must write the whole text (a vector asks
# again for less), or end with status 4 and the line `out of memory`, and have written a beginning of it. Then
# that an audit makes tables anew: the script `audit` takes at least two allocations more than `#audit`. To be
# run after `rt run` in crates/ffaspm.
set -eu
here=$(cd "$(dirname "$0")" && pwd)
manifest=$here/../examples/common/manifest.toml
program=${1:-$here/../crates/ffaspm/out/ffaspm}
work=$(mktemp -d)
trap 'rm -rf "$work"' EXIT
"${CC:-cc}" -std=gnu11 -O1 -Wall -Wextra -shared -fPIC "$here/refuse.c" -o "$work/refuse.so"

buffers='call 8001 84000066 90000000 90001000 1
call 8002 84000066 b0000000 b0001000 1
call 8003 84000066 c0000000 c0001000 1'
lend='lend 8001 0 8002:02 80001000+1'
retrieve='retrieve 8002 800100000001 8001 0 2 02'

# run NUMBER: the script with that allocation refused.
run() {
    REFUSE=$1 LD_PRELOAD=$work/refuse.so "$program" run "$manifest" "$work/script" \
        > "$work/text" 2> "$work/line" 9> "$work/met"
}

# Whether a run with this status ended as it must.
is_right() {
    if test "$1" -eq 0; then
        cmp -s "$work/text" "$work/whole"
    else
        test "$1" -eq 4 && echo 'out of memory' | cmp -s - "$work/line" &&
            cmp -s -n "$(wc -c < "$work/text")" "$work/text" "$work/whole"
    fi
}

# refuse NAME: all allocations of the script on standard input, in turn. Leaves their number in `count`.
refuse() {
    cat > "$work/script"
    run 0
    cp "$work/text" "$work/whole"
    count=0
    ended=0
    while status=0; run $((count + 1)) || status=$?; test -s "$work/met"; do
        count=$((count + 1))
        is_right "$status" || { echo "checks/refusals: $1: allocation $count: status $status" >&2; exit 1; }
        test "$status" -eq 0 || ended=$((ended + 1))
    done
    echo "$1: $count allocations refused in turn, $ended of them ended the run"
}

printf '%s\n' "$buffers" "$lend" | refuse 'lend'
printf '%s\n' "$buffers" "$lend" "$retrieve" | refuse 'lend, retrieve'
printf '%s\n' "$buffers" 'donate 8001 0 8002:00 80001000+1' 'retrieve 8002 800100000001 8001 0 3 01' \
    'donate 8002 0 8001:00 80001000+1' 'retrieve 8001 800200000001 8002 0 3 00' 'maps 8001' |
    refuse 'donate to and fro'
ranges=80010000+1,8000e000+1,8000c000+1,80002000+1,80004000+1,80006000+1,80008000+1,8000a000+1,80012000+2,80020000+1
printf '%s\n' "$buffers" "share 8001 0 8002:02 $ranges" 'reclaim 8001 800100000001' "donate 8001 0 8002:00 $ranges" \
    'retrieve 8002 800100000002 8001 0 3 00' owners 'maps 8001' |
    refuse 'share and donate ten ranges'
printf '%s\n' "$buffers" "$lend" "$retrieve" 'reclaim 8001 800100000001' 'relinquish 8002 800100000001' \
    'reclaim 8001 800100000001' 'reclaim 8001 800100000001' 'tables 8001' 'tables 8002' audit |
    refuse 'lend, retrieve, relinquish, reclaim'
printf '%s\n' "$buffers" 'lend 8001 0 8002:02,8003:02 80200000+1' "$retrieve" "$retrieve alone" \
    'retrieve 8003 800100000001 8001 0 0 00 alone' 'maps 8002' 'maps 8003' owners |
    refuse 'lend to two'

refuse '#audit' << 'END'
#audit
END
without=$count
refuse 'audit' << 'END'
audit
END
test "$count" -ge $((without + 2)) || { echo 'checks/refusals: an audit makes no tables' >&2; exit 1; }
echo 'passed'
