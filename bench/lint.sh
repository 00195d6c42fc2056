#!/usr/bin/env bash
# Tries tools/site_lint.py: what it says of each case of bench/lint_cases.txt, that it refuses exactly what the program refuses
# (the rows of ob_vectors for sites and documents), that its places are those of another reader, its statuses, and what it says of
# servers that are asked and of a record while a server has it (bench/lint_others.py, on free ports of 127.0.0.1).
# usage: bench/lint.sh [PROGRAM]      (out/bin/obix)
set -eu
top=$(cd "$(dirname "$0")/.." && pwd)
[ $# -gt 0 ] || "$top/obix" --prove   # builds it where needed
exec python3 "$top/bench/lint_tries.py" "${1:-$top/out/bin/obix}"
