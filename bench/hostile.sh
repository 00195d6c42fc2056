#!/usr/bin/env bash
# Reads each hostile form at one size and at twice that size, by `obix check`, as a site that `obix stdio` opens or as its input, and
# prints the user seconds and the memory of both and their ratios: more than 2.2 is a form whose cost grows faster than its size.
# Then what writes cost beside watches, as a multiple of what they cost without them, and the memory of watches at their bounds.
# usage: bench/hostile.sh [RUNS [PROGRAM [WORDS]]]      (default 3: the least of so many runs counts; PROGRAM: another one than
#        out/bin/obix; WORDS: the forms alone in whose names these stand)
set -eu
top=$(cd "$(dirname "$0")/.." && pwd)
program=${2:-$top/out/bin/obix}
[ $# -ge 2 ] || "$top/obix" --prove   # builds it where needed
exec python3 "$top/bench/hostile.py" "$program" "$top/examples/point.xml" "${1:-3}" "${3:-}"
