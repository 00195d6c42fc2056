#!/usr/bin/env bash
# Tries examples/nginx.conf: nginx with a self-made certificate and two users, one of whom may only look, before `obix serve`
# with 64 workers, both on free ports of loopback, in a folder of their own. Prints `ok` and what was tried, a line each; the
# first that fails ends it.
# usage: bench/front.sh [PROGRAM]      (default: the built program); needs nginx, curl, openssl and python3 (77 without)
set -eu
top=$(cd "$(dirname "$0")/.." && pwd)
if [ $# = 0 ]; then
  "$top/obix" --prove   # builds it where needed
  set -- "$top/out/bin/obix"
fi
PATH=$PATH:/usr/sbin exec python3 "$top/bench/front_tries.py" "$top/examples" "$1"
