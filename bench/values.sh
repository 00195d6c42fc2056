#!/usr/bin/env bash
# Reads and prints a million values of each kind, and lets Rust's standard library and Python's C functions
# do the same with the same texts. Prints nanoseconds for one read and one print, and the ratios to the peer.
# Run at the top of the repository: bench/values.sh
set -euo pipefail
work=$(mktemp -d)
trap 'rm -rf "$work"' EXIT
mkdir "$work/texts"
python3 bench/values_texts.py "$work/texts"
rustc -O -o "$work/peer" bench/peers/values.rs
bench/build.sh "$work"
best() { # the least figure of three runs of a command
  for _ in 1 2 3; do "$@"; done | awk '
    { if (!($1 in read) || $2 < read[$1]) read[$1] = $2; if (!($1 in shown) || $3 < shown[$1]) shown[$1] = $3 }
    END { for (kind in read) print kind, read[kind], shown[kind] }'
}
best "$work/ob_bench" values "$work/texts" | sort >"$work/ours"
{ best "$work/peer" "$work/texts" | sed 's/$/ Rust/'
  best python3 bench/peers/values.py "$work/texts" | sed 's/$/ Python/'; } | sort >"$work/peers"
echo "kind      read ns  print ns   peer     read ns  print ns   read ratio  print ratio"
join -a 1 "$work/ours" "$work/peers" | awk '
  NF < 4 { printf "%-9s %7.1f  %8.1f   none\n", $1, $2 / 1000, $3 / 1000; next }
  { printf "%-9s %7.1f  %8.1f   %-7s %8.1f  %8.1f   %10.2f  %11.2f\n", $1, $2 / 1000, $3 / 1000, $6, $4 / 1000, $5 / 1000, $2 / $4, $3 / $5 }'
