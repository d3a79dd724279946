#!/bin/sh
# generate.sh FOLDER: writes manifest.toml, of 64 partitions, and calls.script into the folder, which it makes.
# Each partition has 3 MB of memory, and its buffers are the first two pages of that.
set -e
folder=${1:?usage: generate.sh FOLDER}

region() {
    printf '[[region]]\nbase = 0x%x\npages = %d\nkind = "normal"\nowner = 0x%x\n' "$2" "$3" "$1"
    printf 'grants = [ { id = 0x%x, data = "%s", exec = %s } ]\n' "$1" "$4" "$5"
}

manifest() {
    echo 'pool = 0x40000000'
    for i in $(seq 64); do
        printf '[[partition]]\nid = 0x%x\nquota = 8\n' $((0x8000 + i))
    done
    for i in $(seq 64); do
        region $((0x8000 + i)) $((0x100000000 + i * 0x4000000)) 768 rw false
    done
}

# Each partition registers its buffers and lends a page to the next one, the last one to the first.
script() {
    for i in $(seq 64); do
        base=$((0x100000000 + i * 0x4000000))
        printf 'call %x c4000066 %x %x 1\n' $((0x8000 + i)) "$base" $((base + 0x1000))
        printf 'lend %x 0 %x:02 %x+1\n' $((0x8000 + i)) $((0x8001 + i % 64)) $((base + 0x2000))
    done
    echo '# What to see: each lend has number 1 of its sender, and splits a block of the sender alone.'
    echo 'maps 8001'
    echo 'maps 8040'
}

mkdir -p "$folder"
manifest > "$folder/manifest.toml"
script > "$folder/calls.script"
