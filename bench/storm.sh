#!/usr/bin/env bash
# Measures `obix storm`: requests a second, and the most memory that it had, of the same storm run twice, which has to write the
# same bytes.
# usage: bench/storm.sh [SEED CLIENTS REQUESTS]      (default 1 100 1000000)
set -eu
top=$(cd "$(dirname "$0")/.." && pwd)
[ $# -eq 3 ] || set -- 1 100 1000000
"$top/obix" --prove   # builds it where needed
python3 - "$top/out/bin/obix" "$@" <<'PY'
import os, subprocess, sys, time

program, *words = sys.argv[1:]

def run():
    """What a run writes, its seconds on the clock and of the processor, and the most memory that it had, in KB."""
    begin = time.monotonic()
    child = subprocess.Popen([program, "storm", *words], stdout=subprocess.PIPE)
    written = child.stdout.read()
    _, status, used = os.wait4(child.pid, 0)
    if os.waitstatus_to_exitcode(status) != 0:
        sys.exit(f"status {os.waitstatus_to_exitcode(status)}")
    return written, time.monotonic() - begin, used.ru_utime + used.ru_stime, used.ru_maxrss

print(f"{'clock-s':>10} {'cpu-s':>10} {'requests/s':>12} {'memory-MB':>10}")
outputs = []
for _ in range(2):
    written, clock, cpu, memory = run()
    outputs.append(written)
    print(f"{clock:10.2f} {cpu:10.2f} {int(words[2]) / clock:12.0f} {memory / 1024:10.1f}")
print(outputs[0].decode(), end="")
print("twice the same bytes" if outputs[0] == outputs[1] else "not the same bytes")
sys.exit(outputs[0] != outputs[1])
PY
