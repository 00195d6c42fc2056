#!/usr/bin/env bash
# Tells, of GETs and PUTs over 1, 4 and 16 kept links of loopback, which share of a request's time in `obix serve` is waiting
# for the turn of the desk, work in the turn, and work outside it (turn_share.py says how).
# usage: bench/turn_share.sh [REQUESTS]      (40,000 in all at each number of links)
set -euo pipefail
top=$(cd "$(dirname "$0")/.." && pwd)
work=$(mktemp -d)
trap 'rm -rf "$work"' EXIT
gcc -O2 -pthread -o "$work/load" "$top/bench/peers/load.c"
"$top/obix" --prove   # builds it where needed
python3 "$top/bench/turn_share.py" "${OBIX:-$top/out/bin/obix}" "$work/load" "${1:-40000}"
