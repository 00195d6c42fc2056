#!/usr/bin/env bash
# For each dialogue of crates/ob_vectors_sites/data/requests.rows: `obix record` writes its record, `obix audit` finds that legal,
# and, with any one byte of any reply changed, illegal at that entry.
# usage: bench/records.sh [EVERY]      (default 1: each byte; with 7 each seventh)
set -eu
top=$(cd "$(dirname "$0")/.." && pwd)
"$top/obix" --prove   # builds it where needed
exec python3 "$top/bench/records.py" "$top/out/bin/obix" "$top/crates/ob_vectors_sites/data" "${1:-1}"
