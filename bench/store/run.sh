#!/bin/sh
# Builds the store as a static library, links it with the harness, and prints pushes per second with ratios.
set -e
here=$(cd "$(dirname "$0")" && pwd)
cd "$here/../.."
out=target/bench/store
mkdir -p "$out"
(cd crates/store_bench_c && rt lib)
cp crates/store_bench_c/out/libstore_bench_c.a "$out/libstore_bench.a"
rustc --edition 2024 -C opt-level=3 -C target-cpu=native -o "$out/bench" "$here/bench.rs" -L "$out" -l static=store_bench
"$out/bench"
