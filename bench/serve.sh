#!/usr/bin/env bash
# Tries `obix serve` over loopback: each verb by curl, kept connections, pieces of one byte, many clients that each read back
# what they wrote, a client that goes silent inside a head, one that resets inside an answer, noise, an address in brackets,
# a process that is stopped and goes on, a system without descriptors, and refusals that must be seen whole though the client
# still sends. Then, side by side for five minutes, peers that hold all workers (silent, silent and dialling again, kept open, half
# a head, reading nothing, sending or reading slowly): another client must be answered within 10 s, 85 s, or 310 s. Ends with 1 where
# a try isn't as it must be.
# usage: bench/serve.sh [--clients N] [--requests N] [--noise MB] [--ports FIRST] [--only TEXT]
#        (64, 10,000 and 1,024; free ports; all tries, or those whose name has TEXT)
set -eu
top=$(cd "$(dirname "$0")/.." && pwd)
"$top/obix" --prove   # builds it where needed
exec python3 "$top/bench/serve_tries.py" "$top/out/bin/obix" "$@"
