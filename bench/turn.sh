#!/usr/bin/env bash
# Asks a second of one counter from 1, 2 and 4 threads, 2,000,000 asks a thread: through the desk, and
# through a Rust program with std's Mutex and the same loop. Each runs several times, in turns.
# usage: bench/turn.sh [RUNS]
set -euo pipefail
cd "$(dirname "$0")/.."
runs=${1:-7}
work=$(mktemp -d)
trap 'rm -rf "$work"' EXIT
rustc -O -o "$work/peer" bench/peers/turn.rs
bench/build.sh "$work"
for _ in $(seq "$runs"); do
  "$work/ob_bench" turn >>"$work/desk"
  "$work/peer" >>"$work/mutex"
done
python3 - "$work/desk" "$work/mutex" <<'PY'
import statistics
import sys

def rates(path):
    rows = {}
    for line in open(path):
        threads, nanos, total, _ = line.split()
        threads, nanos, total = int(threads), int(nanos), int(total)
        assert total == threads * 2_000_000, line
        rows.setdefault(threads, []).append(total / nanos * 1e3)
    return rows

desk, mutex = rates(sys.argv[1]), rates(sys.argv[2])
print("threads          desk M asks/s  Mutex M asks/s  Mutex / desk")
for threads in (1, 2, 4):
    for name, of in (("best", max), ("median", statistics.median)):
        ours, theirs = of(desk[threads]), of(mutex[threads])
        print(f"{threads:7}  {name:6}  {ours:13.2f}  {theirs:14.2f}  {theirs / ours:12.2f}")
PY
