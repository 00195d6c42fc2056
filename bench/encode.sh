#!/usr/bin/env bash
# Writes the canonical text of an object with 300,000 parts, and lets Rust's standard library write the same text.
# Prints MB a second and the ratio. Run at the top of the repository: bench/encode.sh
set -euo pipefail
work=$(mktemp -d)
trap 'rm -rf "$work"' EXIT
rustc -O -o "$work/peer" bench/peers/encode.rs
bench/build.sh "$work"
ours=$("$work/ob_bench" encode)
peer=$("$work/peer")
awk -v o="$ours" -v p="$peer" 'BEGIN {
  split(o, a, " "); split(p, b, " ")
  printf "ob_encoding %d bytes %.0f MB/s\nRust std  %d bytes %.0f MB/s\nratio of times %.2f\n", a[1], a[1] * 1000 / a[2], b[1], b[1] * 1000 / b[2], a[2] / b[2] }'
