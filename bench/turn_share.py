"""Which share of a request's time in `obix serve` is waiting for the turn of the desk, work in the turn, and work outside it.

Kept links over loopback, each with a worker of its own, ask one request again and again (peers/load.c). perf notes when each
worker reaches four places of the program, by the processor's breakpoints: first the call for a turn, the turn taken, its end
and the call's return; then, in a second run, the read of a link in place of the two in the middle. Time in that read is
waiting for the client, and counts for nothing. A breakpoint's own cost is what a turn that nobody else wants takes to be
had, and is taken off each part.
usage: turn_share.py OBIX LOAD REQUESTS      (needs perf, objdump, and leave to use perf)
"""
import collections
import os
import re
import socket
import subprocess
import sys
import tempfile
import time

SITE = '<obj href="http://h/obix/" is="obix:Lobby"><int href="n" val="7" min="0" max="10" writable="true"/></obj>'
REQUESTS = {"GET": ["GET", "/obix/n"], "PUT": ["PUT", "/obix/n", '<int val="7"/>']}


def places(program):
    """The places in the program: ask, turn taken, turn ended, ask returned, read, read returned."""
    text = subprocess.run(["objdump", "-d", "--no-show-raw-insn", program], capture_output=True, text=True, check=True).stdout
    lines = [line for line in text.splitlines() if re.match(r"\s*[0-9a-f]+:\t|[0-9a-f]+ <", line)]
    start = next(k for k, line in enumerate(lines) if re.match(r"[0-9a-f]+ <ob_turn::desk::Desk::ask.*>:", line))
    end = next(k for k in range(start + 1, len(lines)) if re.match(r"[0-9a-f]+ <", lines[k]))
    ask = lines[start + 1:end]

    def at(line):
        return int(line.strip().split(":")[0], 16)

    lock = next(k for k, line in enumerate(ask) if "lock cmpxchg" in line)
    taken = int(re.search(r"\tje\s+([0-9a-f]+)", ask[lock + 1]).group(1), 16)
    swaps = [k for k, line in enumerate(ask) if re.search(r"\txchg\s.*\(", line) and not any("$0x2," in it for it in ask[k - 2:k])]

    def calls(name):
        return [k for k, line in enumerate(lines) if re.search(rf"\tcall\s.*<{name}", line)]

    read = calls("recv@plt")[0]
    asked = min(calls("ob_turn::desk::Desk::ask"), key=lambda k: abs(at(lines[k]) - at(lines[read])))
    return [at(ask[0]), taken, at(ask[swaps[-1]]), at(lines[asked + 1]), at(lines[read]), at(lines[read + 1])]


def run(program, load, room, verb, links, each, spots):
    """Requests a second, and for each worker when it reached which of these places."""
    with socket.socket() as free:
        free.bind(("127.0.0.1", 0))
        port = free.getsockname()[1]
    words = [program, "serve", f"{room}/site.xml", "127.0.0.1", str(port), "--workers", str(links), "--quota", "2"]
    server = subprocess.Popen(words, stdout=subprocess.PIPE, text=True)
    server.stdout.readline()
    time.sleep(0.5)
    with open(f"/proc/{server.pid}/maps") as maps:
        base = int(maps.readline().split("-")[0], 16)
    events = [word for spot in spots for word in ("-e", f"mem:{base + spot:#x}:x")]
    client = [load, str(port), str(links), str(each), *REQUESTS[verb]]
    record = ["perf", "record", "-q", "-m", "1024", "-c", "1", *events, "-p", str(server.pid), "-o", f"{room}/perf"]
    rate = float(subprocess.run([*record, "--", *client], capture_output=True, text=True, check=True).stdout)
    server.kill()
    server.wait()
    text = subprocess.run(["perf", "script", "--ns", "-i", f"{room}/perf", "-F", "tid,time,ip"], capture_output=True, text=True, check=True).stdout
    seen = collections.defaultdict(list)
    for line in text.splitlines():
        worker, moment, spot = line.split()
        seen[worker].append((round(float(moment.rstrip(":")) * 1e9), int(spot, 16) - base))
    return rate, seen


def between(seen, pairs):
    """Nanoseconds from each first place to the second one that follows it, summed over the workers; and how often."""
    spent, count = collections.Counter(), collections.Counter()
    for row in seen.values():
        for (then, spot), (now, other) in zip(row, row[1:]):
            if (spot, other) in pairs:
                spent[spot, other] += now - then
                count[spot, other] += 1
    return spent, count


def measure(program, load, room, verb, links, each, spots):
    """Requests a second under the breakpoints, and nanoseconds a request: to the turn, in it, behind it, and outside."""
    ask, taken, ended, returned, read, had = spots
    rate, seen = run(program, load, room, verb, links, each, [ask, taken, ended, returned])
    spent, count = between(seen, {(ask, taken), (taken, ended), (ended, returned)})
    parts = [spent[pair] / max(count[pair], 1) for pair in ((ask, taken), (taken, ended), (ended, returned))]
    _, seen = run(program, load, room, verb, links, each, [ask, returned, read, had])
    spent, count = between(seen, {(had, ask), (returned, read)})
    outside = sum(spent[pair] / max(count[pair], 1) for pair in ((had, ask), (returned, read)))
    return rate, [*parts, outside]


def main():
    program, load, requests = sys.argv[1], sys.argv[2], int(sys.argv[3])
    spots = places(program)
    print(f"processors {os.cpu_count()}, load before {os.getloadavg()[0]:.2f}")
    print("verb  links  a second   wait us  turn us  after us  outside us   wait  turn  after  outside")
    with tempfile.TemporaryDirectory() as room:
        with open(f"{room}/site.xml", "w") as file:
            file.write(SITE)
        cost = measure(program, load, room, "GET", 1, 2_000, spots)[1][0]
        for verb in REQUESTS:
            for links in (1, 4, 16):
                rate, parts = measure(program, load, room, verb, links, requests // links, spots)
                parts = [max(part - share * cost, 0) for part, share in zip(parts, (1, 1, 1, 2))]
                shares = [f"{100 * part / sum(parts):5.1f}%" for part in parts]
                print(f"{verb}   {links:4}  {rate:9.0f}  " + " ".join(f"{part / 1000:9.2f}" for part in parts) + "  " + " ".join(shares), flush=True)
    print(f"a breakpoint: {cost / 1000:.2f} us, taken off; load after {os.getloadavg()[0]:.2f}")


main()
