#!/usr/bin/env bash
# Reads a document of 16 MB with 300,000 objects by `obix check`, which also writes its canonical text, and by
# `xmllint --noout` (the Debian package libxml2-utils), which builds its tree and writes nothing. Prints processor
# seconds, MB a second, the peak memory of each and the ratios, the best of RUNS runs in turns. Then the same of documents
# that are hostile, and of the decoder alone when the document comes in pieces.
# usage: bench/decode.sh [RUNS]      (default 5)
# A Rust reader over quick-xml is left out: its Debian package isn't installed here.
set -euo pipefail
cd "$(dirname "$0")/.."
command -v xmllint >/dev/null || apt-get install -y libxml2-utils >/dev/null 2>&1 || true
command -v xmllint >/dev/null || echo "xmllint isn't there (apt-get install libxml2-utils): obix alone is measured"
work=$(mktemp -d)
trap 'rm -rf "$work"' EXIT
python3 bench/decode_documents.py "$work"
./obix --prove   # builds it where needed
python3 - "$work" "${1:-5}" <<'PY'
import os
import shutil
import sys

folder, runs = sys.argv[1], int(sys.argv[2])
commands = {"obix check": ["out/bin/obix", "check"]}
if shutil.which("xmllint"):
    commands["xmllint"] = ["xmllint", "--huge", "--noout"]


def run(words):
    """Processor seconds, peak memory in MB, and the exit status."""
    child = os.fork()
    if child == 0:
        null = os.open(os.devnull, os.O_WRONLY)
        os.dup2(null, 1)
        os.dup2(null, 2)
        os.execvp(words[0], words)
    _, status, used = os.wait4(child, 0)
    return used.ru_utime + used.ru_stime, used.ru_maxrss / 1024, os.waitstatus_to_exitcode(status)


print(f"{'document':10} {'MB':>6} {'reader':12} {'cpu s':>7} {'MB/s':>7} {'peak MB':>8} {'status':>6} {'time ratio':>11}")
for document in ("points", "ints", "siblings", "comment"):
    file = f"{folder}/{document}.xml"
    size = os.path.getsize(file) / 1e6
    best = {}
    for _ in range(runs if document == "points" else max(1, runs // 2)):
        for name, words in commands.items():
            seconds, memory, status = run(words + [file])
            if name not in best or seconds < best[name][0]:
                best[name] = (seconds, memory, status)
    for name, (seconds, memory, status) in best.items():
        ratio = seconds / best["xmllint"][0] if "xmllint" in best else float("nan")
        print(f"{document:10} {size:6.1f} {name:12} {seconds:7.2f} {size / seconds:7.1f} {memory:8.0f} {status:6} {ratio:11.2f}")
PY
bench/build.sh "$work"
for document in points comment; do
  echo "$document in pieces, by the decoder alone:"
  "$work/ob_bench" decode "$work/$document.xml" | awk '
    { ns[$1] = $2; order[NR] = $1; bytes = $3; objects = $4 }
    END { whole = ns[order[NR]]
      for (i = 1; i <= NR; i++) printf "  pieces of %10d  %8.1f MB/s  %6.2f times the whole  (%d objects)\n", order[i], bytes * 1000 / ns[order[i]], ns[order[i]] / whole, objects }'
done
