#!/usr/bin/env bash
# Histories and alarms beside the same work with Rust's standard library: pushes into a log and queries
# of ten records, for logs of 10,000 to 1,000,000 records; values and statuses, for 1 to 10,000 alarms of
# one source. Each program runs several times, in turns; the best time of each counts.
# usage: bench/logs.sh [RUNS]
set -euo pipefail
cd "$(dirname "$0")/.."
runs=${1:-5}
work=$(mktemp -d)
trap 'rm -rf "$work"' EXIT
rustc -O -o "$work/peer" bench/peers/logs.rs
bench/build.sh "$work"
for run in $(seq "$runs"); do
  "$work/ob_bench" logs >>"$work/ours"
  "$work/peer" >>"$work/peers"
done
python3 - "$work/ours" "$work/peers" <<'PY'
import sys

def best(path):
    rows = {}
    for line in open(path):
        name, size, changing, asking, found = line.split()
        size, changing, asking, found = int(size), int(changing), int(asking), int(found)
        assert found > 900_000 if name == "log" else found == 100_000, line
        old = rows.get((name, size), (changing, asking))
        rows[name, size] = min(old[0], changing), min(old[1], asking)
    return rows

ours, peers = best(sys.argv[1]), best(sys.argv[2])
print("what            size  ours ns  std ns  ours / std")
for (name, size), (changing, asking) in ours.items():
    changes = size if name == "log" else 100_000
    other = peers[name, size]
    for what, mine, theirs, count in (
        ("push" if name == "log" else "value", changing, other[0], changes),
        ("query of ten" if name == "log" else "status", asking, other[1], 100_000),
    ):
        print(f"{what:12}  {size:8}  {mine / count:7.1f}  {theirs / count:6.1f}  {mine / max(theirs, 1):10.2f}")
PY
