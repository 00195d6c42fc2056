#!/usr/bin/env bash
# Measures `obix stdio`: pipelined GETs of one point, from a file to a file, against `cat` of the same answers.
# usage: bench/stdio.sh [REQUESTS]      (default 1,000,000; then 10 and 100 times as many)
set -eu
top=$(cd "$(dirname "$0")/.." && pwd)
count=${1:-1000000}
work=$(mktemp -d "${TMPDIR:-/tmp}/obix-stdio.XXXXXX")
trap 'rm -rf "$work"' EXIT
"$top/obix" --prove   # builds it where needed

# Processor seconds (user and system) and seconds on the clock of a command: "PROCESSOR CLOCK".
timed() {
  local TIMEFORMAT='%U %S %R'
  { time "$@" >"$work/out" 2>"$work/err"; } 2>&1 | awk '{ print $1 + $2, $3 }'
}
requests() {  # requests N: N GETs of the example point
  yes "$(printf 'GET /obix/n HTTP/1.1\r')"$'\n'$'\r' | head -n $((2 * $1))
}
serve() { "$top/out/bin/obix" stdio "$top/examples/point.xml" <"$work/in"; }
copy() { cat "$work/answers"; }

printf '%12s %10s %10s %14s %12s %10s %8s\n' requests cpu-s clock-s requests/s MB-out/s cat-cpu-s ratio
for times in 1 10 100; do
  n=$((count * times))
  need=$((n * 320 / 1048576)); free=$(df -Pm "$work" | awk 'NR==2 { print $4 }')
  if [ "$free" -lt $((need + 1024)) ]; then echo "(skipped $n requests: $need MB wanted, $free free)"; continue; fi
  requests "$n" >"$work/in"
  read -r cpu clock < <(timed serve)
  bytes=$(stat -c %s "$work/out")
  [ "$bytes" = $((92 * n)) ] || { echo "wrong number of bytes: $bytes for $n requests" >&2; exit 1; }
  mv "$work/out" "$work/answers"
  read -r floor _ < <(timed copy)
  awk -v n="$n" -v c="$cpu" -v w="$clock" -v b="$bytes" -v f="$floor" 'BEGIN {
    printf "%12d %10.2f %10.2f %14.0f %12.0f %10.2f %8.1f\n", n, c, w, n / c, b / c / 1e6, f, (f > 0 ? c / f : 0) }'
  rm -f "$work/in" "$work/out" "$work/answers"
done
