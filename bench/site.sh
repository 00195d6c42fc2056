#!/usr/bin/env bash
# Measures the site in place through `obix stdio`, in processor seconds less those of the same run without the requests that are
# measured: writes and polls on a site of 55,013 shown parts, polls of 1 and 2,048 items with nothing changed, Puts on sites of
# 10 to 100,000 nodes, Gets of a root, a point that 1,000 watches have, and the pipelined requests of a plant room.
# usage: bench/site.sh [TIMES]      (default 1; with 0.1 a tenth of the requests)
set -eu
top=$(cd "$(dirname "$0")/.." && pwd)
"$top/obix" --prove   # builds it where needed
exec python3 "$top/bench/site.py" "$top/out/bin/obix" "$top/crates/ob_vectors_sites/data/sites.txt" "${1:-1}"
