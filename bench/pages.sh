#!/usr/bin/env bash
# Runs each command of the pages for users (README.md, examples/README.md, docs/RUNNING.md, docs/obix.1) that can be run on any
# machine, with the program in place of ./obix, and compares what it prints and its status with what the page says. Each page has
# a folder of its own: what it writes to /etc, /var/lib or /usr/local lies there, and so do a real nginx with its certificate and
# users, at a free port (pages_room.py). Looks also at the pages' links and the length of their lines, and at the manual page and the
# units by mandoc and systemd-analyze. Prints `ok`, `skipped` or `not ok` and the command, a line each. Status 0: none is `not ok`.
# usage: bench/pages.sh [PROGRAM]      (default: the built program); needs curl, openssl and python3 (77 without); nginx where it is installed
set -eu
top=$(cd "$(dirname "$0")/.." && pwd)
for tool in curl openssl python3; do
  command -v "$tool" >/dev/null || { echo "pages: $tool is not installed: apt-get install $tool" >&2; exit 77; }
done
if [ $# = 0 ]; then
  "$top/obix" --prove   # builds it where needed
  set -- "$top/out/bin/obix"
fi
exec python3 "$top/bench/pages.py" "$top" "$(readlink -f "$1")"
