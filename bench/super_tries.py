"""The tries of bench/super.sh. Bounded in time and count; all traffic is on 127.0.0.1."""
import argparse
import http.client
import shutil
import signal
import socket
import subprocess
import sys
import tempfile
import threading
import time

# How long a watch lives that nobody asks, and how long `super` waits for a server where nothing else is said, in seconds.
LEASE, WAIT = 60, 10
GONE = '<err is="obix:BadUriErr" display="no such object"/>'
UNSUPPORTED = '<err is="obix:UnsupportedErr" display="verb not supported here"/>'


def free_port():
    with socket.socket() as free:
        free.bind(("127.0.0.1", 0))
        return free.getsockname()[1]


def number(href, value):
    return f'<int href="{href}" val="{value}" max="999" min="0" writable="true"/>'


class Server:
    """`obix serve` with so many points `/obix/p0`, `/obix/p1` and so on, each of which is 0 where it starts."""

    def __init__(self, program, room, points, workers=4):
        self.program, self.points, self.workers, self.port = program, points, workers, free_port()
        self.site = f"{room}/site-{self.port}.xml"
        with open(self.site, "w") as file:
            rows = "".join(f'<int href="p{k}" val="0" min="0" max="999" writable="true"/>' for k in range(points))
            file.write(f'<obj href="http://h/obix/" is="obix:Lobby">{rows}</obj>')
        self.start()

    def start(self):
        words = [self.program, "serve", self.site, "127.0.0.1", str(self.port), "--workers", str(self.workers), "--quota", "1000000"]
        self.run = subprocess.Popen(words, stdout=subprocess.PIPE, text=True)
        line = self.run.stdout.readline()
        assert line == f"listening 127.0.0.1 {self.port}\n", line
        self.values = [0] * self.points

    def kill(self):
        self.run.send_signal(signal.SIGKILL)
        self.run.communicate()

    def write(self, point, value):
        """Writes a point past the supervisor."""
        link = http.client.HTTPConnection("127.0.0.1", self.port, timeout=60)
        link.request("PUT", f"/obix/p{point}", f'<int val="{value}"/>', {"Content-Type": "text/xml"})
        reply = link.getresponse()
        assert reply.status == 200 and b"err" not in reply.read()
        link.close()
        self.values[point] = value


class Upstream:
    """What a config says of one upstream, and what has to be shown of it."""

    def __init__(self, name, server, points):
        self.name, self.server, self.points, self.up = name, server, points, True

    def config(self, port=None):
        hrefs = "".join(f'<uri val="/obix/p{k}"/>' for k in self.points)
        port = port or self.server.port
        return f'<obj name="{self.name}"><uri name="url" val="http://127.0.0.1:{port}/obix/"/><list name="hrefs">{hrefs}</list></obj>'

    def objects(self):
        return "".join(number(f"/obix/{self.name}/{i}", self.server.values[k]) for i, k in enumerate(self.points))

    def shown(self, name=True):
        named = f'name="{self.name}" ' if name else ""
        if not self.up:
            return f'<list {named}href="/obix/{self.name}/" status="down"/>'
        return f'<list {named}href="/obix/{self.name}/" status="ok">{self.objects()}</list>'


def tree(upstreams):
    return f'<obj href="/obix/">{"".join(u.shown() for u in upstreams)}</obj>'


class Super:
    """`obix super`, which is asked one request after the other."""

    def __init__(self, program, room, config, rounds=0, wait_ms=None):
        with open(f"{room}/config.xml", "w") as file:
            file.write(f"<list>{config}</list>")
        words = [program, "super", f"{room}/config.xml", "--rounds", str(rounds)]
        words += [] if wait_ms is None else [f"--wait={wait_ms}"]
        self.run = subprocess.Popen(words, stdin=subprocess.PIPE, stdout=subprocess.PIPE)

    def ask(self, verb, target, body=""):
        words = f"{verb} {target} HTTP/1.1\r\nContent-Type: text/xml\r\nContent-Length: {len(body)}\r\n\r\n{body}"
        self.run.stdin.write(words.encode())
        self.run.stdin.flush()
        head = self.run.stdout.readline()
        assert head == b"HTTP/1.1 200 OK\r\n", head
        length = 0
        while (line := self.run.stdout.readline()) != b"\r\n":
            name, value = line.split(b":", 1)
            if name.lower() == b"content-length":
                length = int(value)
        return self.run.stdout.read(length).decode()

    def end(self):
        self.run.stdin.close()
        rest = self.run.stdout.read()
        assert (self.run.wait(60), rest) == (0, b""), (self.run.returncode, rest)


def same(got, want):
    assert got == want, f"\n  came: {got[:2000]}\n  must: {want[:2000]}"


def try_apart(program, room, options):
    """three servers, one of which is killed and started again"""
    servers = [Server(program, room, 3) for _ in range(3)]
    a, b, c = ups = [Upstream(name, server, points) for name, server, points in zip("abc", servers, ([0], [0, 1, 2], [2, 1]))]
    run = Super(program, room, "".join(u.config() for u in ups), rounds=1)
    same(run.ask("GET", "/obix/"), tree(ups))
    same(run.ask("GET", "/obix/b/"), b.shown(name=False))
    same(run.ask("GET", "/obix/c/1"), number("/obix/c/1", 0))
    for target in ("/obix/d/", "/obix/a", "/obix/a/1", "/obix/c/01", "/obix", "/", "/obix/p0"):
        same(run.ask("GET", target), GONE)
    same(run.ask("POST", "/obix/a/0"), UNSUPPORTED)
    same(run.ask("PUT", "/obix/", "<int/>"), UNSUPPORTED)
    # a PUT is sent on, and is read at its own server and at the tree
    a.server.values[0] = 8
    same(run.ask("PUT", "/obix/a/0", '<int val="8"/>'), number("/obix/a/0", 8))
    same(run.ask("GET", "/obix/"), tree(ups))
    # a write past the supervisor is seen at the next request
    b.server.write(1, 5)
    same(run.ask("GET", "/obix/"), tree(ups))
    # a value that its server refuses: the err comes from there, and the upstream stays up
    reply = run.ask("PUT", "/obix/a/0", '<int val="1000"/>')
    assert reply.startswith('<err href="/obix/a/0"'), reply
    same(run.ask("GET", "/obix/"), tree(ups))
    # one dies
    c.server.kill()
    c.up = False
    same(run.ask("GET", "/obix/"), tree(ups))
    same(run.ask("GET", "/obix/c/"), c.shown(name=False))
    same(run.ask("GET", "/obix/c/0"), GONE)
    b.server.write(2, 7)
    same(run.ask("PUT", "/obix/b/0", '<int val="9"/>'), number("/obix/b/0", 9))
    b.server.values[0] = 9
    same(run.ask("GET", "/obix/"), tree(ups))
    # and comes again, with the values of its file
    c.server.start()
    c.up = True
    same(run.ask("GET", "/obix/"), tree(ups))
    c.server.write(2, 4)
    same(run.ask("GET", "/obix/"), tree(ups))
    # all die, and the program ends as its input does
    for u in ups:
        u.server.kill()
        u.up = False
    same(run.ask("GET", "/obix/"), tree(ups))
    run.end()


def try_pause(program, room, options):
    """a pause longer than the lease: shown down once, and joined again"""
    server = Server(program, room, 2)
    up = Upstream("a", server, [0, 1])
    run = Super(program, room, up.config())
    same(run.ask("GET", "/obix/"), tree([up]))
    time.sleep(LEASE + 5)
    up.up = False
    same(run.ask("GET", "/obix/"), tree([up]))
    up.up = True
    same(run.ask("GET", "/obix/"), tree([up]))
    run.end()
    server.kill()


def try_silent(program, room, options):
    """a server that takes connections and never answers"""
    silent, links = socket.create_server(("127.0.0.1", 0)), []

    def take():
        while True:
            try:
                links.append(silent.accept()[0])
            except OSError:
                return

    threading.Thread(target=take, daemon=True).start()
    server = Server(program, room, 1)
    ups = [Upstream("a", server, [0]), Upstream("s", server, [0])]
    ups[1].up = False
    run = Super(program, room, ups[0].config() + ups[1].config(silent.getsockname()[1]))
    began = time.time()
    same(run.ask("GET", "/obix/"), tree(ups))
    took = time.time() - began
    assert WAIT - 1 < took < WAIT + 5, f"answered after {took:.1f} s"
    assert len(links) == 1
    print(f"  answered after {took:.1f} s")
    run.run.kill()
    run.run.communicate()
    silent.close()
    server.kill()


class Dripping:
    """A server that takes connections, and sends a byte of a head every tenth of a second, without an end."""

    def __init__(self):
        self.socket, self.taken = socket.create_server(("127.0.0.1", 0)), 0
        self.port = self.socket.getsockname()[1]
        threading.Thread(target=self.take, daemon=True).start()

    def take(self):
        while True:
            link = self.socket.accept()[0]
            self.taken += 1
            threading.Thread(target=self.drip, args=(link,), daemon=True).start()

    def drip(self, link):
        try:
            for byte in b"HTTP/1.1 200 OK\r\nX: " + b"x" * 6_000:
                link.sendall(bytes([byte]))
                time.sleep(0.1)
        except OSError:
            pass


class Full:
    """A server whose queue of connections is full, so that a dial waits."""

    def __init__(self):
        self.socket = socket.create_server(("127.0.0.1", 0), backlog=0)
        self.port = self.socket.getsockname()[1]
        self.queue = []
        for _ in range(8):
            link = socket.socket()
            link.setblocking(False)
            link.connect_ex(("127.0.0.1", self.port))
            self.queue.append(link)
        time.sleep(0.5)


def try_dead(program, room, options):
    """a server that drips, one whose dial waits, and one that is stopped, beside an honest one"""
    limit, slack = 1.5, 1.0
    drips, full = Dripping(), Full()
    a, b = Server(program, room, 1), Server(program, room, 1)
    ups = [Upstream("a", a, [0]), Upstream("d", a, [0]), Upstream("f", a, [0]), Upstream("b", b, [0])]
    ups[1].up = ups[2].up = False
    run = Super(program, room, ups[0].config() + ups[1].config(drips.port) + ups[2].config(full.port) + ups[3].config(), wait_ms=int(limit * 1000))

    def timed(dead):
        began = time.time()
        same(run.ask("GET", "/obix/"), tree(ups))
        took = time.time() - began
        assert dead * limit - 0.2 < took < dead * limit + slack, f"answered after {took:.1f} s, with {dead} to wait for"
        return f"{took:.2f}"

    first = timed(2)
    further = [timed(1) for _ in range(6)]
    assert drips.taken == 4, f"dialled {drips.taken} times in seven rounds, of which the first and each second one is its own"
    b.run.send_signal(signal.SIGSTOP)
    ups[3].up = False
    dying = timed(2)
    later = [timed(1) for _ in range(2)]
    b.run.send_signal(signal.SIGCONT)
    came = 0
    while came < 3 and not ups[3].up:
        came += 1
        ups[3].up = 'href="/obix/b/" status="ok"' in run.ask("GET", "/obix/")
    assert ups[3].up, "not joined within three rounds"
    print(f"  with --wait {int(limit * 1000)}: the first answer after {first} s, further ones after {', '.join(further)} s,")
    print(f"  the one in which a server died after {dying} s, those behind it after {', '.join(later)} s; joined anew after {came} rounds")
    run.run.kill()
    run.run.communicate()
    a.kill()
    b.kill()


def try_figures(program, room, options):
    """64 upstreams of 100 points each"""
    servers = [Server(program, room, 100, workers=17) for _ in range(4)]
    ups = [Upstream(f"u{k}", servers[k % 4], range(100)) for k in range(64)]
    run = Super(program, room, "".join(u.config() for u in ups))

    def timed(target, want):
        began = time.perf_counter()
        got = run.ask("GET", target)
        took = time.perf_counter() - began
        same(got, want)
        return took

    joined = timed("/obix/u0/0", number("/obix/u0/0", 0))
    still = [timed("/obix/u0/0", number("/obix/u0/0", 0)) for _ in range(options.rounds)]
    whole = [timed("/obix/", tree(ups)) for _ in range(options.rounds)]
    changed = []
    for n in range(options.rounds):
        for server in servers:
            for point in range(100):
                server.write(point, n + 1)
        changed.append(timed("/obix/u0/0", number("/obix/u0/0", n + 1)))
    same(run.ask("GET", "/obix/"), tree(ups))
    mean = lambda times: f"{sum(times) / len(times) * 1000:.1f} ms (from {min(times) * 1000:.1f} to {max(times) * 1000:.1f})"
    print(f"  the round that joins them       {joined * 1000:.0f} ms")
    print(f"  a round without a change        {mean(still)}")
    print(f"  the same, and the whole tree    {mean(whole)}")
    print(f"  a round with each point changed {mean(changed)}")
    run.end()
    for server in servers:
        server.kill()


def main():
    words = argparse.ArgumentParser()
    words.add_argument("program")
    words.add_argument("--rounds", type=int, default=20)
    words.add_argument("--only", default="")
    options = words.parse_args()
    failed = 0
    for one in (try_apart, try_pause, try_silent, try_dead, try_figures):
        if options.only not in one.__name__ and options.only not in one.__doc__:
            continue
        room = tempfile.mkdtemp(prefix="obix-super.")
        try:
            print(f"{one.__doc__} ..", flush=True)
            one(options.program, room, options)
            print("  as it must be", flush=True)
        except AssertionError as wrong:
            failed += 1
            print(f"  WRONG: {wrong}", flush=True)
        finally:
            shutil.rmtree(room)
    sys.exit(1 if failed else 0)


main()
