#!/usr/bin/env bash
# Tries the launcher ./obix on a small checkout with a kit that is made up for it (launcher_kit.py), so that a build takes a moment: two
# at once, builds that are cut off, terminals, statuses, what changes, no rights to write, no rt, failures, what a gate leaves; and with
# the real rt, over a compiler that is made up, what a gate leaves. Prints `ok`, `not ok` or `skipped` and what it tried, a line each,
# and ends with a count, and with status 1 where one isn't ok. Some tries want to be root, to run the launcher as another user.
# usage: bench/launcher.sh [WORD]      (WORD: only the tries whose name has it)
set -eu
top=$(cd "$(dirname "$0")/.." && pwd)
for it in flock setpriv; do
  command -v "$it" >/dev/null || { echo "bench/launcher.sh: there is no $it (Debian: apt-get install util-linux)" >&2; exit 77; }
done
exec python3 "$top/bench/launcher_tries.py" "$top/obix" "$@"
