#!/usr/bin/env bash
# Tries `obix keep` over loopback (tried, and no part of what is proved): a server that is killed (SIGKILL) 200 times at a random
# moment under eight clients, each with a model of what it was answered, and every fourth time once more while it starts; links
# for which memory is wanting; a full disk, and a file that may not grow: the program ends at once, though 64 workers or links are idle; each call of the record's file failing, and a kill at
# each (by strace); a RECORD that can't be opened, that another server has, that is no record, or that another site file had;
# copies of RECORD made while it is written; a shorter record by `obix compact`, also of the one of the kills; RECORD torn at each byte; that an answer comes behind its syncs (by strace). Then it
# measures a write, makes and deletes of watches, and a restart. A kill takes nothing from the system's cache: what a disk keeps
# when the power fails isn't tried. Ends with 1 where a try isn't as it must be.
# usage: bench/keep.sh [--kills N] [--batches N] [--copies N] [--entries N] [--watches N] [--room FOLDER] [--only TEXT]
#        (200, 100, 20, 100,000 and 100,000; the folder for temporary files; all tries, or those whose name has TEXT)
set -eu
top=$(cd "$(dirname "$0")/.." && pwd)
"$top/obix" --prove   # builds it where needed
exec python3 "$top/bench/keep_tries.py" "$top/out/bin/obix" "$@"
