"""The tries of bench/serve.sh. Bounded in time and count; all traffic is on 127.0.0.1 and ::1."""
import argparse
import concurrent.futures
import errno
import http.client
import itertools
import multiprocessing
import os
import resource
import shutil
import signal
import socket
import struct
import subprocess
import sys
import tempfile
import time
import xml.etree.ElementTree as ET

CLIENTS_TIME = 900
# Until when another client is answered, in seconds, where all workers have peers that are silent between requests, that are silent
# within a request or take nothing, and that send a byte now and then.
IDLE, SILENCE, DRIP = 10, 85, 310
ports = None   # where the tries listen, if it matters


def free_port(host):
    if ports:
        return next(ports)
    with socket.socket(socket.AF_INET6 if ":" in host else socket.AF_INET) as free:
        free.bind((host, 0))
        return free.getsockname()[1]


def site(points):
    """A site file of so many writable points."""
    rows = "".join(f'<int href="p{k}" val="0" writable="true"/>' for k in range(points))
    return f'<obj href="http://h/obix/" is="obix:Lobby">{rows}</obj>'


class Server:
    """`obix serve` on a free port of loopback, which ends when each worker has had its links."""

    def __init__(self, program, points, workers, quota, host="127.0.0.1", descriptors=None):
        self.room = tempfile.mkdtemp(prefix="obix-serve.")
        with open(f"{self.room}/site.xml", "w") as file:
            file.write(site(points))
        self.host = host.strip("[]")
        self.port = free_port(self.host)
        words = [program, "serve", f"{self.room}/site.xml", host, str(self.port)]
        self.links = workers * quota
        few = (lambda: resource.setrlimit(resource.RLIMIT_NOFILE, (descriptors, descriptors))) if descriptors else None
        self.run = subprocess.Popen([*words, "--workers", str(workers), "--quota", str(quota)], stdout=subprocess.PIPE, text=True, preexec_fn=few)
        line = self.run.stdout.readline()
        assert line == f"listening {host} {self.port}\n", line

    def connect(self):
        link = socket.create_connection((self.host, self.port), timeout=60)
        link.setsockopt(socket.IPPROTO_TCP, socket.TCP_NODELAY, 1)
        return link

    def answers(self, path, timeout):
        """After how many seconds a new client has its answer."""
        began, link = time.time(), http.client.HTTPConnection(self.host, self.port, timeout=timeout)
        try:
            assert asked(link, "GET", path)[0] == 200
        except TimeoutError:
            raise AssertionError(f"no answer within {timeout} s") from None
        finally:
            link.close()
        return time.time() - began

    def stop(self):
        self.run.terminate()
        self.run.communicate()
        shutil.rmtree(self.room)

    def end(self):
        rest, _ = self.run.communicate(timeout=CLIENTS_TIME)
        shutil.rmtree(self.room)
        assert (self.run.returncode, rest) == (0, f"served {self.links}\n"), (self.run.returncode, rest)


def parsed(text):
    """The root of an answer's body, which xmllint takes too."""
    if shutil.which("xmllint"):
        subprocess.run(["xmllint", "--noout", "-"], input=text, check=True)
    return ET.fromstring(text)


def asked(link, verb, path, body=None):
    link.request(verb, path, body, {"Content-Type": "text/xml"} if body else {})
    reply = link.getresponse()
    return reply.status, reply.read()


def verbs(program):
    server, at = Server(program, 1, 1, 4), None
    at = f"http://127.0.0.1:{server.port}/obix/p0"
    curl = ["curl", "-s", "-S", "--max-time", "20"]
    get = subprocess.run([*curl, at], capture_output=True, check=True).stdout
    put = subprocess.run([*curl, "-X", "PUT", "-H", "Content-Type: text/xml", "-d", '<int val="8"/>', at], capture_output=True, check=True).stdout
    post = subprocess.run([*curl, "-X", "POST", f"http://127.0.0.1:{server.port}/obix/watchService/make"], capture_output=True, check=True).stdout
    delete = subprocess.run([*curl, "-o", "/dev/null", "-w", "%{http_code}", "-X", "DELETE", at], capture_output=True, check=True).stdout
    server.end()
    assert parsed(get).get("val") == "0" and parsed(put).get("val") == "8", (get, put)
    assert parsed(post).get("is") == "obix:Watch" and delete == b"405", (post, delete)


def kept_and_cut(program):
    server = Server(program, 1, 1, 2)
    link = http.client.HTTPConnection("127.0.0.1", server.port, timeout=20)
    for number in range(100):
        status, text = asked(link, "PUT", "/obix/p0", f'<int val="{number}"/>')
        assert status == 200 and parsed(text).get("val") == str(number)
    link.close()
    link = server.connect()
    for byte in b"GET /obix/p0 HTTP/1.1\r\nConnection: close\r\n\r\n":
        link.sendall(bytes([byte]))
    answer = b"".join(iter(lambda: link.recv(65_536), b""))
    head, _, body = answer.partition(b"\r\n\r\n")
    assert head.startswith(b"HTTP/1.1 200 OK\r\n") and parsed(body).get("val") == "99", answer
    server.end()


def client(port, point, requests, failed):
    try:
        link = http.client.HTTPConnection("127.0.0.1", port, timeout=120)
        for number in range(requests // 2):
            for verb, body in (("PUT", f'<int val="{number}"/>'), ("GET", None)):
                status, text = asked(link, verb, f"/obix/p{point}", body)
                root = ET.fromstring(text)
                assert (status, root.get("href"), root.get("val")) == (200, f"/obix/p{point}", str(number)), text
        link.close()
    except Exception as fault:
        failed.put(f"client {point}: {fault!r}")


def many(program, clients, requests):
    server, failed, began = Server(program, clients, clients, 1), multiprocessing.Queue(), time.time()
    runs = [multiprocessing.Process(target=client, args=(server.port, k, requests, failed)) for k in range(clients)]
    [it.start() for it in runs]
    [it.join(CLIENTS_TIME) for it in runs]
    took = time.time() - began
    assert failed.empty(), failed.get()
    server.end()
    return f"{clients} clients, {clients * requests} requests, {clients * requests / took:.0f} a second"


def silent(program):
    server = Server(program, 1, 2, 1)
    quiet = server.connect()
    quiet.sendall(b"GET /obix/p0 HT")
    time.sleep(0.5)
    link, began = http.client.HTTPConnection("127.0.0.1", server.port, timeout=10), time.time()
    for _ in range(100):
        assert asked(link, "GET", "/obix/p0")[0] == 200
    took = time.time() - began
    link.close()
    quiet.close()
    server.end()
    return f"100 requests beside it in {took:.3f} s"


def reset(program):
    server = Server(program, 5_000, 1, 2)
    link = server.connect()
    link.sendall(b"GET /obix/ HTTP/1.1\r\n\r\n" * 20)
    link.recv(100)
    link.setsockopt(socket.SOL_SOCKET, socket.SO_LINGER, struct.pack("ii", 1, 0))
    link.close()
    link = http.client.HTTPConnection("127.0.0.1", server.port, timeout=60)
    assert asked(link, "GET", "/obix/p7")[0] == 200
    link.close()
    server.end()


def noise(program, megabytes):
    piece, links = os.urandom(1 << 20), max(megabytes, 1)
    server = Server(program, 1, 1, links + 1)
    for _ in range(links):
        link = server.connect()
        try:
            link.sendall(piece)
            link.shutdown(socket.SHUT_WR)
            assert link.recv(100)[:12] in (b"HTTP/1.1 400", b"HTTP/1.1 431", b"")
        except OSError as fault:   # the server closed the link before all was sent
            if not isinstance(fault, ConnectionError) and fault.errno != errno.ENOTCONN:
                raise
        link.close()
    link = http.client.HTTPConnection("127.0.0.1", server.port, timeout=20)
    assert asked(link, "GET", "/obix/p0")[0] == 200
    link.close()
    server.end()
    return f"{links} MB"


def ipv6(program):
    server = Server(program, 1, 1, 1, host="[::1]")
    server.answers("/obix/p0", 20)
    server.end()


def stopped(program):
    """A read that a stopped process goes on with is tried again: signals interrupt calls with a time limit."""
    server = Server(program, 1, 1, 1)
    link = http.client.HTTPConnection("127.0.0.1", server.port, timeout=20)
    for _ in range(20):
        assert asked(link, "GET", "/obix/p0")[0] == 200
        server.run.send_signal(signal.SIGSTOP)
        time.sleep(0.02)
        server.run.send_signal(signal.SIGCONT)
        time.sleep(0.02)
    link.close()
    server.end()


def few_descriptors(program):
    """Four workers and room for two connections: a third client is answered when one of the two goes away, and no worker ends."""
    server = Server(program, 1, 4, 6, descriptors=10)
    links = [server.connect() for _ in range(3)]
    for link in links:
        link.sendall(b"GET /obix/p0 HTTP/1.1\r\n\r\n")
    for link in links[:2]:
        assert link.recv(100).startswith(b"HTTP/1.1 200 ")
        link.close()
    assert links[2].recv(100).startswith(b"HTTP/1.1 200 ")
    links[2].close()
    times = [server.answers("/obix/p0", 20) for _ in range(server.links - len(links))]
    server.end()
    return f"{len(times)} clients after it in {sum(times):.3f} s"


def held(program, workers, opening, limit, points=1, path="/obix/p0", each=None):
    """Peers that send this and hold all workers; another client is answered within the limit. `each` is done to the peers every 20 s."""
    server = Server(program, points, workers, 1_000)
    peers = [server.connect() for _ in range(workers)]
    for peer in peers:
        peer.sendall(opening)
    time.sleep(0.5)
    with concurrent.futures.ThreadPoolExecutor(1) as one:
        answered = one.submit(server.answers, path, limit)
        while each and not concurrent.futures.wait([answered], 20).done:
            for peer in peers:
                try:
                    each(peer)
                except OSError:   # the server has closed it
                    pass
        try:
            took = answered.result()
        finally:
            server.stop()
    return f"another client is answered after {took:.1f} s"


def silent_again(port, end):
    """A peer that says nothing, and dials again as soon as it is sent away, until then."""
    while time.time() < end:
        try:
            with socket.create_connection(("127.0.0.1", port), timeout=max(end - time.time(), 0.1)) as link:
                link.recv(1)
        except OSError:
            time.sleep(0.01)


def redialled(program, workers, peers, seconds):
    """Silent peers, more than there are workers, that dial again: each of some clients meanwhile is answered in time."""
    server, end = Server(program, 1, workers, 100_000), time.time() + seconds
    with concurrent.futures.ThreadPoolExecutor(peers) as crowd:
        runs = [crowd.submit(silent_again, server.port, end) for _ in range(peers)]
        time.sleep(1)
        took = []
        while time.time() < end - IDLE:
            took.append(server.answers("/obix/p0", 3 * IDLE))
            time.sleep(1.7)
        server.stop()
        concurrent.futures.wait(runs)
    assert max(took) <= IDLE, f"answered after {', '.join(f'{it:.1f}' for it in took)} s"
    return f"{len(took)} clients are answered after {min(took):.1f} to {max(took):.1f} s"


def whole(server, sent):
    """The answer to these bytes, which may be more than the server reads, up to its end."""
    link = server.connect()
    link.sendall(sent)
    answer = b"".join(iter(lambda: link.recv(65_536), b""))
    link.close()
    return answer


def refusals(program):
    """An answer over bytes that the server doesn't read is seen whole, 50 times of 50."""
    server, seen = Server(program, 1, 4, 100_000), {}
    post = b"POST /obix/p0 HTTP/1.1\r\nContent-Type: text/xml\r\n"
    for name, status, sent in (
            ("413", b"413", post + b"Content-Length: 2000000\r\n\r\n" + b"x" * 2_000_000),
            ("411", b"411", post + b"Transfer-Encoding: chunked\r\n\r\n" + b"4000\r\n" + b"x" * 16_384 + b"\r\n0\r\n\r\n"),
            ("431", b"431", b"GET /obix/p0 HTTP/1.1\r\n" + b"X: yyyyyyyy\r\n" * 2_000 + b"\r\n"),
            ("400", b"400", b"GET\0 /obix/p0 HTTP/1.1\r\n" + b"z" * 100_000)):
        seen[name] = 0
        for _ in range(50):
            try:
                head, _, body = whole(server, sent).partition(b"\r\n\r\n")
                length = next((int(it[15:]) for it in head.split(b"\r\n") if it.startswith(b"Content-Length:")), None)
                seen[name] += head.startswith(b"HTTP/1.1 " + status + b" ") and length == len(body)
            except ConnectionError:
                pass
    seen["411 to http.client"] = 0
    for _ in range(50):
        link = http.client.HTTPConnection("127.0.0.1", server.port, timeout=20)
        try:
            link.request("PUT", "/obix/p0", iter([b"<int val='1'/>"] * 1_000), {"Content-Type": "text/xml"})
            seen["411 to http.client"] += link.getresponse().status == 411
        except ConnectionError:
            pass
        link.close()
    server.stop()
    told = ", ".join(f"{name} {count}" for name, count in seen.items())
    assert set(seen.values()) == {50}, f"of 50 each: {told}"
    return f"of 50 each: {told}"


def main():
    global ports
    words = argparse.ArgumentParser()
    words.add_argument("program")
    for name, number in (("--clients", 64), ("--requests", 10_000), ("--noise", 1_024)):
        words.add_argument(name, type=int, default=number)
    words.add_argument("--ports", type=int, help="the first port to listen on; free ones if it isn't given")
    words.add_argument("--only", default="", help="only tries whose name has this text")
    given = words.parse_args()
    if given.ports:
        ports = itertools.count(given.ports)
    half, field = b"GET /obix/p0 HT", b"GET /obix/p0 HTTP/1.1\r\nX: "
    kept, ask = b"GET /obix/p0 HTTP/1.1\r\n\r\n", b"GET /obix/ HTTP/1.1\r\n\r\n"
    tries = [("verbs by curl", verbs), ("kept connections, and pieces of one byte", kept_and_cut),
             ("many clients", lambda it: many(it, given.clients, given.requests)), ("a silent client", silent),
             ("a client that resets", reset), ("noise", lambda it: noise(it, given.noise)), ("[::1]", ipv6),
             ("stopped and continued", stopped), ("few descriptors", few_descriptors), ("refusals over unread bytes", refusals)]
    waits = [("64 silent clients of 64 workers", lambda it: held(it, 64, b"", IDLE)),
             ("16 silent clients that dial again, of 8 workers", lambda it: redialled(it, 8, 16, 60)),
             ("5 half heads of 5 workers", lambda it: held(it, 5, half, SILENCE)),
             ("4 kept connections of 4 workers", lambda it: held(it, 4, kept, IDLE)),
             ("2 clients of 2 workers that read nothing", lambda it: held(it, 2, ask * 30, SILENCE, points=20_000)),
             ("4 clients of 4 workers that send a byte each 20 s", lambda it: held(it, 4, field, DRIP, each=lambda peer: peer.send(b"y"))),
             ("2 clients of 2 workers that read 256 kB each 20 s", lambda it: held(it, 2, ask * 90, DRIP, points=20_000, each=lambda peer: peer.recv(1 << 18)))]
    right = True

    def tell(name, run):
        nonlocal right
        try:
            told = run(given.program)
            print(f"{name}: as it must be{'; ' + told if told else ''}", flush=True)
        except Exception as fault:
            right = False
            print(f"{name}: NOT as it must be; {fault!r}", flush=True)

    for name, run in tries:
        if given.only in name:
            tell(name, run)
    # These only wait, so they go side by side.
    with concurrent.futures.ThreadPoolExecutor(len(waits)) as room:
        for name, run in waits:
            if given.only in name:
                room.submit(tell, name, run)
    return 0 if right else 1


if __name__ == "__main__":
    sys.exit(main())
