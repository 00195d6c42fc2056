#!/usr/bin/env bash
# Measures how long `obix` takes to open a site file: processor seconds, for growing files. A file of more than 200,000 shown parts
# is refused as Size, at the end of all that is looked at.
# usage: bench/load.sh
set -eu
top=$(cd "$(dirname "$0")/.." && pwd)
work=$(mktemp -d "${TMPDIR:-/tmp}/obix-load.XXXXXX")
trap 'rm -rf "$work"' EXIT
"$top/obix" --prove   # builds it where needed

opens() {  # opens KIND COUNT
  python3 "$top/bench/load_sites.py" "$1" "$2" >"$work/site.xml"
  local TIMEFORMAT='%U %S'
  local spent status=0
  spent=$({ time "$top/out/bin/obix" stdio "$work/site.xml" </dev/null >/dev/null 2>"$work/said"; } 2>&1) || status=$?
  awk -v k="$1" -v n="$2" -v b="$(stat -c %s "$work/site.xml")" -v s="$status" -v t="$spent" -v w="$(cat "$work/said")" 'BEGIN {
    split(t, p, " "); printf "%-10s %8d %10.1f %10.3f %6d  %s\n", k, n, b / 1e6, p[1] + p[2], s, w }'
}

printf '%-10s %8s %10s %10s %6s\n' site count MB cpu-s status
for count in 1000 10000 99000; do opens points "$count"; done
for count in 1000 10000 70000; do opens histories "$count"; done
for count in 1000 20000 190000 400000; do opens contracts "$count"; done
for count in 10 20 40; do opens naming "$count"; done
