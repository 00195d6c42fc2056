#!/usr/bin/env bash
# Tries tools/site_from_csv.py, site_to_csv.py, history_csv.py and move_record.py with the program and site_lint.py: faults of tables
# by line and column, tables there and back, trends against the server's own answers, records moved to changed site files.
# usage: bench/csv.sh [--obix PROGRAM] [--from PORT] [TRY..]      (out/bin/obix, free ports, all tries)
set -eu
top=$(cd "$(dirname "$0")/.." && pwd)
case " $* " in *" --obix"*) ;; *) "$top/obix" --prove ;; esac   # builds it where needed
exec python3 "$top/bench/csv_tries.py" "$@"
