#!/bin/sh
# Takes the commands out of README.md (lines of four blanks and a command) and runs the quick ones from the top of the
# tree: each must succeed, and `make quick` must write what the README shows. Of the others it tests that the Makefile has
# them. It tests too that the README has at most 120 lines of at most 120 characters, and that its links lead somewhere.
set -eu
cd "$(dirname "$0")/.."
work=$(mktemp -d)
trap 'rm -rf "$work"' EXIT

fail() {
    echo "checks/readme: $1" >&2
    exit 1
}

test "$(wc -l < README.md)" -le 120 || fail 'more than 120 lines'
test "$(LC_ALL=C.UTF-8 awk 'length($0) > 120' README.md | wc -l)" -eq 0 || fail 'a line of more than 120 characters'
grep -o '](\([^)]*\))' README.md | tr -d '()]' | while read -r link; do
    test -e "$link" || fail "no file $link"
done
sed -n 's/^    \(make .*\)$/\1/p' README.md > "$work/commands"
test -s "$work/commands" || fail 'no command'
while read -r command; do
    case $command in
    'make quick' | 'make help')
        $command < /dev/null > "$work/text" 2> "$work/errors" || { cat "$work/errors" >&2; fail "$command"; }
        ;;
    *) make -n "${command#make }" > /dev/null || fail "$command: no such target" ;;
    esac
    echo "$command: as it stands there"
done < "$work/commands"
sed -n 's/^    \(reply .*\|maps .*\|00[0-9a-f]* .*\)$/\1/p' README.md > "$work/shown"
while read -r line; do
    grep -qxF "$line" "$work/text" || fail "not written: $line"
done < "$work/shown"
echo 'passed'
