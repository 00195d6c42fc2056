#!/usr/bin/env bash
# Tries tools/historian.py with a PostgreSQL of its own: a minute in which the server, the tool and the database are killed; a history
# that rolls over while the tool is away, a record that is put back, a server that begins anew, a changed site file, two historians of
# one server, 1,000 records of one moment, each kind of value, partitions of months, 20 servers at once, a first fill of 100,000
# records; and the queries of examples/grafana-obix.json by psql. Some five minutes. A line `ok` or `not ok` a try; status 1 where one isn't ok.
# Status 77: PostgreSQL or psycopg isn't installed (on Debian: apt-get install postgresql python3-psycopg), so nothing was tried.
# usage: bench/historian.sh [--obix PROGRAM] [--from PORT] [TRY ..]      (out/bin/obix; ports from this one on; these tries alone)
set -eu
top=$(cd "$(dirname "$0")/.." && pwd)
for python in python3 /usr/bin/python3 none; do "$python" -c 'import psycopg' 2>/dev/null && break; done
[ $python != none ] || { echo "historian.sh: no psycopg here (Debian: python3-psycopg): nothing was tried" >&2; exit 77; }
command -v initdb >/dev/null || ls /usr/lib/postgresql/*/bin/initdb >/dev/null 2>&1 || {
  echo "historian.sh: no PostgreSQL here (Debian: postgresql): nothing was tried" >&2; exit 77; }
case " $* " in *" --obix "*) ;; *) "$top/obix" --prove ;; esac      # builds it where needed
exec "$python" "$top/bench/historian_tries.py" "$@"
