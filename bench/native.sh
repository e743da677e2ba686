#!/bin/bash
# native.sh OUT: proves the static library and writes it to OUT/libtokenglade.a, for x86-64 Linux.
# Where it fails, OUT has no library.
set -euo pipefail
[ $# = 1 ] || { echo "usage: native.sh OUT" >&2; exit 2; }
mkdir -p "$1"
out=$(realpath "$1")
cd "$(dirname "$0")/.."
rm -f "$out/libtokenglade.a"
[ "$(uname -m)" = x86_64 ] || { echo "native.sh: Rattle builds libraries for x86-64 alone" >&2; exit 2; }
(cd crates/tokenglade_c && rt lib)
cp crates/tokenglade_c/out/libtokenglade_c.a "$out/libtokenglade.a"
