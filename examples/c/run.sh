#!/bin/sh
# Builds the library and the examples, runs `lend` and compares its text with lend.txt, and runs `refusals`,
# which must find no difference. With the word `valgrind` it runs `lend` under valgrind too, which must find no
# error and no leak.
set -eu
here=$(cd "$(dirname "$0")" && pwd)
root=$here/../..
out=$here/out
cc=${CC:-cc}
if ! command -v "$cc" > /dev/null; then
    echo "examples/c/run.sh: no C compiler: install gcc or clang, or set CC" >&2
    exit 2
fi
(cd "$root/crates/ffaspm_c" && rt lib > /dev/null)
mkdir -p "$out"
for example in lend refusals; do
    "$cc" -std=c11 -O2 -Wall -Wextra -Werror -I "$root/include" -I "$here" \
        "$here/$example.c" "$here/heap.c" "$root/crates/ffaspm_c/out/libffaspm_c.a" -o "$out/$example"
done
"$out/lend" "$root/examples/common/manifest.toml" > "$out/lend.txt"
diff "$here/lend.txt" "$out/lend.txt"
"$out/refusals" "$root/examples/common/manifest.toml"
if [ "${1:-}" = valgrind ]; then
    valgrind -q --leak-check=full --error-exitcode=9 \
        "$out/lend" "$root/examples/common/manifest.toml" | diff "$here/lend.txt" -
fi
echo "examples/c: the text is as stored"
