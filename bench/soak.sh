#!/usr/bin/env bash
# Runs `obix serve` under steady load over loopback: each link writes and reads a point of its own, pipelines requests of which
# some are refused, and compares each answer with what a model of the link says: none may be missing, come twice or be another.
# The server's memory is looked at each second; in the last fifth of the time it may be 5 percent above the second one.
# usage: bench/soak.sh [--links N] [--seconds N]      (64 and 300)
set -eu
top=$(cd "$(dirname "$0")/.." && pwd)
"$top/obix" --prove   # builds it where needed
exec python3 "$top/bench/soak.py" "$top/out/bin/obix" "$@"
