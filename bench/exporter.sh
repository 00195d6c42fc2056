#!/usr/bin/env bash
# Tries tools/exporter.py and examples/alerts.yml: `promtool check metrics` of what is written, and a Prometheus that scrapes it, whose
# HTTP API gives the values that were put; restarts of the server, a lapsed watch, stored entries up to the limit, many points, the end;
# and by `promtool test rules` when each rule warns.
# Status 77: prometheus and promtool aren't installed (on Debian: apt-get install prometheus), so nothing was tried.
# usage: bench/exporter.sh [PROGRAM]      (out/bin/obix)
set -eu
top=$(cd "$(dirname "$0")/.." && pwd)
command -v prometheus >/dev/null && command -v promtool >/dev/null || { echo "exporter.sh: no prometheus here (apt-get install prometheus): nothing was tried" >&2; exit 77; }
[ $# -gt 0 ] || "$top/obix" --prove   # builds it where needed
exec python3 "$top/bench/exporter_tries.py" --obix "${1:-$top/out/bin/obix}"
