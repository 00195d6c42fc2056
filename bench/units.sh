#!/usr/bin/env bash
# Starts the units of examples/ by a real systemd, in a container without a network: the server, the page, the figures for
# Prometheus, the look each minute, the compaction, and super at a port; and tries what each is for. Prints `ok` and what was
# tried, a line each; the first that fails ends it. Takes a minute and a half, half of it the look at a server that hangs.
# usage: bench/units.sh [PROGRAM]      (default: the built program); needs root, systemd-nspawn, curl and python3 (77 without)
set -eu
top=$(cd "$(dirname "$0")/.." && pwd)
[ "$(id -u)" = 0 ] || { echo "units: only root may start a container" >&2; exit 77; }
command -v systemd-nspawn >/dev/null || { echo "units: systemd-nspawn is not installed: apt-get install systemd-container" >&2; exit 77; }
if [ $# = 0 ]; then
  "$top/obix" --prove   # builds it where needed
  set -- "$top/out/bin/obix"
fi
exec python3 "$top/bench/units_tries.py" "$top" "$(readlink -f "$1")"
