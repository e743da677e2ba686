#!/bin/bash
# build.sh: builds the library and its peers for bench/run.py, into target/bench. Wants Debian's libyaml-dev, libfyaml-dev and librust-yaml-rust-dev.
set -euo pipefail
cd "$(dirname "$0")/.."
out=target/bench
registry=/usr/share/cargo/registry
mkdir -p $out
bench/native.sh $out
gcc -O2 -Wall -Iinclude bench/bench.c -L$out -ltokenglade -lyaml -lfyaml -o $out/bench
rust="rustc --edition 2018 -C opt-level=3 --cap-lints allow -L $out"
$rust --crate-type rlib --crate-name linked_hash_map $registry/linked-hash-map-*/src/lib.rs --out-dir $out
$rust --crate-type rlib --crate-name yaml_rust $registry/yaml-rust-*/src/lib.rs --out-dir $out
rustc --edition 2021 -C opt-level=3 -L $out --extern yaml_rust=$out/libyaml_rust.rlib bench/bench.rs -o $out/bench-rust
