#!/usr/bin/env bash
# Opens a site of 1,000 points with 100,000 entries of weekly schedules and asks it: prints the microseconds of a request where
# nothing is due, and of one before which a day's firings are written, as the difference of N and 2N requests, with the opening and
# the most memory. First that what is shown is what a reckoning in Python has, over a spring and an autumn change of the clock.
# usage: bench/schedule.sh [PROGRAM]      (out/bin/obix)
set -eu
top=$(cd "$(dirname "$0")/.." && pwd)
[ $# -gt 0 ] || "$top/obix" --prove   # builds it where needed
exec python3 "$top/bench/schedule.py" "${1:-$top/out/bin/obix}"
