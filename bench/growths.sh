#!/usr/bin/env bash
# Refuses `obix` each of its growths (calls of malloc and realloc by its own code) in turn, a run each, in which each kind of
# request is made. By `stdio` a run then ends with status 12 and a front of the whole answers, or with status 0 and all of them;
# so it does where all growths behind that one are refused too. By `serve` the link on which the growth was refused ends, and
# over a second link a Get of the root and a poll of a watch show the state as it was before the request that lost its answer,
# or as that request leaves it, and the rest is answered as ever; or it ends with status 12 before it serves a link, at times
# once it listens. Prints the number of growths, and where the runs ended.
# usage: bench/growths.sh [--each N]      (1; with 10 each tenth growth; OBIX names another program than out/bin/obix)
set -euo pipefail
top=$(cd "$(dirname "$0")/.." && pwd)
work=$(mktemp -d)
trap 'rm -rf "$work"' EXIT
[ -n "${OBIX:-}" ] || "$top/obix" --prove   # builds it where needed
gcc -O2 -shared -fPIC -o "$work/refuse.so" "$top/bench/growths_refuse.c"
python3 "$top/bench/growths.py" "${OBIX:-$top/out/bin/obix}" "$work/refuse.so" "$@"
