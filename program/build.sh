#!/bin/bash
# build.sh [OUT]: proves the program, with a line for each of its crates, and builds it: OUT, or target/bin/tokenglade. It runs on x86-64 Linux.
set -euo pipefail
cd "$(dirname "$0")/.."
out=$(realpath -m "${1:-target/bin/tokenglade}")
command -v rt > /dev/null || { echo "build.sh: Rattle's rt is not on the path" >&2; exit 2; }
[ "$(uname -m)" = x86_64 ] || { echo "build.sh: Rattle builds programs for x86-64 alone" >&2; exit 2; }
kit=$(dirname "$(dirname "$(readlink -f "$(command -v rt)")")")
program=tokenglade_program
work=$PWD/target/program
mkdir -p "$work" "$(dirname "$out")"
rm -f "$out"

# the crates that it is made of, lowest first
crates=$(awk -F: -v program=$program '
    /^[a-z]/ { sub(/ .*/, "", $1); deps[$1] = $2 }
    function below(name,    names, n, i) {
        if (!(name in deps) || name in seen) return
        seen[name]
        n = split(deps[name], names, " ")
        for (i = 1; i <= n; i++) below(names[i])
        print name
    }
    END { below(program) }' crates.txt)
count=$(wc -w <<< "$crates")
n=0
# proved NAME COMMAND..: in the crate's folder
proved() {
    local name=$1
    shift
    (cd "crates/$name" && "$@") > "$work/$name" 2>&1 || { tail -20 "$work/$name" >&2; exit 1; }
    n=$((n + 1))
    echo "$n of $count: $name proved"
}
for name in $crates; do
    if [ "$name" = $program ]; then
        # which also links it and runs it once
        proved $program rt run -- help
    else
        proved "$name" rt lib
    fi
done
"$kit/toolchain/bin/clang" --target=x86_64-unknown-linux-gnu -O2 -Wall -Wextra -Werror -fPIE -c program/signals.c -o "$work/signals.o"
"$kit/bin/rattle-link" --target x86_64-unknown-linux-gnu --toolchain "$kit/toolchain" -o "$out" "crates/$program/out/$program.o" "$work/signals.o" \
    "$kit/c/libos_c.a" "$kit/c/liblibc_c.a" > "$work/link" 2>&1 || {
    cat "$work/link" >&2
    exit 1
}
echo "$out"
