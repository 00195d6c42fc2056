#!/usr/bin/env bash
# Tries tools/dashboard.py in headless Chromium against `obix serve`: alarms are acknowledged and points are written by clicks and
# keys, a refusal is read, lines are put into a plot and saved as CSV, the server is restarted, a watch lapses, 100 readers look on,
# pages of other hosts are refused, names hold markup, 500 points are searched; the ends of the program and its statuses; and how
# examples/dashboard.py begins and ends. Prints a line `ok` or `not ok` a try, and ends with status 1 where one isn't ok.
# Status 77: chromium isn't installed (on Debian: apt-get install chromium), so nothing was tried.
# usage: bench/dashboard.sh [OBIX] [--shots FOLDER] [--only WORD]      (out/bin/obix; screenshots; tries whose name has the word)
set -eu
top=$(cd "$(dirname "$0")/.." && pwd)
command -v chromium >/dev/null || { echo "dashboard.sh: no chromium here (apt-get install chromium): nothing was tried" >&2; exit 77; }
case ${1:---} in --*) "$top/obix" --prove; set -- "$top/out/bin/obix" "$@" ;; esac
exec python3 "$top/bench/dashboard_tries.py" "$@"
