#!/usr/bin/env bash
# Has `obix stdio` answer requests about a writable point, makes the record of that run from its answers, and audits it: prints
# the processor seconds and the most memory of both, and the ratio of the times. Then the same record with one byte of its last
# reply changed, which has to be illegal at that entry.
# usage: bench/audit.sh [REQUESTS]      (default 100000)
set -eu
top=$(cd "$(dirname "$0")/.." && pwd)
"$top/obix" --prove   # builds it where needed
exec python3 "$top/bench/audit.py" "$top/out/bin/obix" "${1:-100000}"
