#!/bin/sh
# Lists the wrong bodies that are refused first because a proof names what the body no longer has, and not because a
# clause, a `requires` of a callee or an invariant fails: such a refusal shows the shape of a proof alone. It tries those of
# the gate, of the crates named or of all; with `-` it reads what `rt must-fail` printed. It ends with 1 where it lists one
# that CONTRIBUTING.md does not name, as `CRATE/NAME`.
set -eu
root=$(cd "$(dirname "$0")/.." && pwd)
work=$(mktemp -d)
trap 'rm -rf "$work"' EXIT
cd "$root"

if test "${1:-}" = -; then
    cat > "$work/printed"
else
    test $# -gt 0 || set -- $(ls -d crates/*/must-fail | cut -d / -f 2)
    rt must-fail "$@" > "$work/printed" 2>&1 || { grep -v 'refused, as it must be' "$work/printed" >&2; exit 1; }
fi
sed -n 's/^rt: must-fail \([^ ]*\)\.edit: refused, as it must be/\1 /p' "$work/printed" > "$work/refused"
test -s "$work/refused" || { echo 'checks/refused_by_names: no refusal was printed' >&2; exit 1; }

unnamed=0
# A long reason is cut, so a record that lacks a field is told by how its reason begins.
grep -E 'only because a proof file names|: record `|has no field|that can be named from here' "$work/refused" > "$work/listed" || true
while read -r edit reason; do
    grep -qF "\`$edit\`" CONTRIBUTING.md && continue
    unnamed=$((unnamed + 1))
    echo "$edit: $reason"
done < "$work/listed"
echo "$(wc -l < "$work/refused") refused, $(wc -l < "$work/listed") by a name, $unnamed of these not named in CONTRIBUTING.md"
test "$unnamed" -eq 0
