"""The runs of bench/site.sh."""
import os
import subprocess
import sys
import tempfile

program, documents, times = sys.argv[1], sys.argv[2], float(sys.argv[3])
folder = tempfile.TemporaryDirectory()


def request(verb, target, body=""):
    """A request as it goes over a connection."""
    length = f"Content-Length: {len(body)}\r\n" if body else ""
    return f"{verb} {target} HTTP/1.1\r\n{length}\r\n{body}".encode()


def run(site, parts):
    """Processor seconds of `obix stdio`, all at one moment, the most memory that it had in MB, and the bytes of its answers. The
    requests are those of each part so many times."""
    with open(f"{folder.name}/in", "wb") as file:
        for requests, count in parts:
            block = max(1, min(count, 1000))
            for _ in range(count // block):
                file.write(requests * block)
            file.write(requests * (count % block))
    with open(f"{folder.name}/site", "w", encoding="utf-8") as file:
        file.write(site)
    words = ["stdio", f"{folder.name}/site", "--at", "1767600000000", "--tick", "0"]
    # by `time`, as a child of this process would begin with the memory that Python has
    timed = ["/usr/bin/time", "-q", "-f", "%U %S %M", "-o", f"{folder.name}/used", program, *words]
    with open(f"{folder.name}/in", "rb") as given, open(f"{folder.name}/out", "wb") as written:
        status = subprocess.run(timed, stdin=given, stdout=written).returncode
    if status != 0:
        sys.exit(f"status {status}")
    with open(f"{folder.name}/used") as file:
        user, system, most = map(float, file.read().split())
    return user + system, most / 1024, os.path.getsize(f"{folder.name}/out")


def told(what, count, more, less, unit=1, name="request"):
    """Prints what the requests of one run cost above those of another."""
    seconds = max(more[0] - less[0], 0)
    print(f"{what:58} {count:9} {seconds:8.2f} {seconds * 1e6 / max(count, 1) / unit:10.3f} us a {name:8} {more[1]:8.1f}")


def points(count):
    """A site of so many writable ints."""
    nodes = "".join(f'<int href="p{n}" val="0" writable="true"/>' for n in range(count))
    return f'<obj href="http://h/obix/">{nodes}</obj>'


def adding(number, hrefs):
    """Watch.add of some hrefs."""
    uris = "".join(f'<uri val="{href}"/>' for href in hrefs)
    return request("POST", f"/obix/watch/{number}/add", f'<obj is="obix:WatchIn"><list name="hrefs">{uris}</list></obj>')


def some(count):
    return max(1, int(count * times))


make = request("POST", "/obix/watchService/make")
poll = request("POST", "/obix/watch/1/pollChanges")
print(f"{'':58} {'requests':>9} {'cpu-s':>8} {'':>20} {'MB':>12}")

# The site of 5,000 points of one contract with nine parts, and a client that watches its root.
inner = "".join(f'<int name="c{n}" val="{n}"/>' for n in range(9))
contract = f'<int href="def/P" is="obix:WritablePoint" val="0" writable="true">{inner}</int>'
nodes = "".join(f'<int href="p{n}" is="/obix/def/P"/>' for n in range(5000))
large = f'<obj href="http://h/obix/"><list name="contracts">{contract}</list>{nodes}</obj>'
turns = b"".join(request("POST", "/obix/p7/writePoint", f'<obj><int name="value" val="{value}"/></obj>') for value in (1, 2))
begin = [(make + adding(1, ["/obix/"]), 1)]
writes, polls = some(50_000), some(100_000)
opened = run(large, [])
print(f"{'opening a site of 55,013 shown parts':58} {'':9} {opened[0]:8.2f} {'':20} {opened[1]:12.1f}")
watched = run(large, begin)
told("adding its root", 1, watched, opened)
written = run(large, begin + [(turns, writes)])
told("writing 1 and 2 in turn to one point", 2 * writes, written, watched)
reported = run(large, begin + [(turns, writes), (poll, 1)])
told("the first poll", 1, reported, written)
told("further polls, with nothing changed", polls, run(large, begin + [(turns, writes), (poll, 1), (poll, polls)]), reported)

# Polls with nothing changed.
site = points(2048)
for items in (1, 2048):
    start = [(make + adding(1, [f"/obix/p{n}" for n in range(items)]) + poll, 1)]
    base = run(site, start)
    told(f"a poll of {items} items, with nothing changed", some(100_000), run(site, start + [(poll, some(100_000))]), base)

# Puts on sites of more and more nodes.
for size in (10, 1000, 100_000):
    site = points(size)
    turns = request("PUT", "/obix/p5", '<int val="1"/>') + request("PUT", "/obix/p5", '<int val="2"/>')
    base = run(site, [])
    told(f"a Put on a site of {size} nodes", 2 * some(100_000), run(site, [(turns, some(100_000))]), base)
    print(f"{'  memory a node':58} {'':9} {'':8} {base[1] * 1024 / size:10.2f} KB")

# A Get of the root.
site = points(10_000)
told("a Get of a root of 10,000 parts, a part", some(100), run(site, [(request("GET", "/obix/"), some(100))]), run(site, []), 10_001, "part")

# One point that 1,000 watches have.
site = points(10)
start = [(b"".join(make for _ in range(1000)) + b"".join(adding(n + 1, ["/obix/p5"]) for n in range(1000)), 1)]
base = run(site, start)
told("a Put on a point that 1,000 watches have", 2 * some(20_000), run(site, start + [(turns, some(20_000))]), base)

# The plant room.
with open(documents, encoding="utf-8") as file:
    room = next(p.split("\n", 1)[1] for p in file.read().split("\n=== ") if p.startswith("plant_room "))
base = run(room, [])
mixed = b"".join(request("GET", "/obix/boiler/flow") + request("PUT", "/obix/boiler/setpoint", f'<real val="{value}"/>') for value in (60, 70))
told("pipelined GETs and PUTs of the plant room", 4 * some(250_000), run(room, [(mixed, some(250_000))]), base)
