#!/usr/bin/env bash
# Frames 2,000 small requests and 400 with a body of 4 KiB, in pieces of 1 and of 1,460 bytes and whole, and lets
# Rust's httparse (the Debian package librust-httparse-dev) do the same with the same bytes in the same run.
# Prints heads a second and megabytes a second, and the ratio of the times. Run at the top of the repository: bench/framing.sh
set -euo pipefail
source=$(echo /usr/share/cargo/registry/httparse-*/src/lib.rs)
[ -f "$source" ] || { echo "apt-get install librust-httparse-dev"; exit 1; }
work=$(mktemp -d)
trap 'rm -rf "$work"' EXIT
rustc -O --edition 2018 --crate-type rlib --crate-name httparse --cfg 'feature="std"' --cfg httparse_simd -A warnings -o "$work/libhttparse.rlib" "$source"
rustc -O --edition 2021 --extern httparse="$work/libhttparse.rlib" -o "$work/peer" bench/peers/framing.rs
bench/build.sh "$work"
for _ in 1 2 3; do "$work/ob_bench" framing; done >"$work/ours"
for _ in 1 2 3; do "$work/peer"; done >"$work/theirs"
best() { awk '{ k = $1 " " $2; if (!(k in t) || $3 < t[k]) { t[k] = $3; w[k] = $4 } } END { for (k in t) print k, t[k], w[k] }' "$1" | sort; }
paste -d' ' <(best "$work/ours") <(best "$work/theirs") | awk -v GETLEN=145 -v POSTLEN=4210 '
  BEGIN { print "stream  pieces      heads/s      MB/s   httparse heads/s      MB/s   time ratio" }
  {
    if ($4 != $8) { print "the weights differ: " $0; exit 1 }
    heads = $1 == "get" ? 2000 : 400; bytes = $1 == "get" ? heads * GETLEN : heads * POSTLEN
    pieces = $2 > 100000 ? "whole" : $2
    printf "%-6s  %6s  %11.0f  %8.1f  %17.0f  %8.1f  %11.2f\n", $1, pieces, heads * 1e9 / $3, bytes * 1e3 / $3, heads * 1e9 / $7, bytes * 1e3 / $7, $3 / $7
  }'
