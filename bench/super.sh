#!/usr/bin/env bash
# Tries `obix super` over three `obix serve` on loopback: the tree at each request, a PUT that is sent on, a write that goes
# past it, a server that is killed and started again, a pause longer than the lease, a server that takes connections and never
# answers, whose link ends after 10 s, and with `--wait` one that drips, one whose dial waits and one that is stopped. Then
# measures the rounds over 64 upstreams of 100 points each: the one that joins them, one without a change, and one with a write
# of each point before it. Ends with 1 where a try isn't as it must be. All of it takes some three minutes, for the pause and the
# servers that are waited for.
# usage: bench/super.sh [--rounds N] [--only TEXT]      (20 rounds of each kind; all tries, or those whose name has TEXT)
set -eu
top=$(cd "$(dirname "$0")/.." && pwd)
if [ -z "${OBIX:-}" ]; then "$top/obix" --prove; fi   # builds it where needed
exec python3 "$top/bench/super_tries.py" "${OBIX:-$top/out/bin/obix}" "$@"
