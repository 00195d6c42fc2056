"""The load of bench/soak.sh. Bounded in time and count; all traffic is on 127.0.0.1."""
import argparse
import multiprocessing
import os
import random
import sys
import time

from serve_tries import Server

TIME = 900


def framed(verb, path, body=""):
    """A request, as bytes."""
    head = f"{verb} {path} HTTP/1.1\r\nHost: h\r\n" + (f"Content-Type: text/xml\r\nContent-Length: {len(body)}\r\n" if body else "")
    return f"{head}\r\n{body}".encode()


class Model:
    """What one link's point shows, and the answers that its requests have."""

    def __init__(self, point):
        self.path, self.value = f"/obix/p{point}", 0

    def shown(self):
        return f'<int href="{self.path}" val="{self.value}" writable="true"/>'

    def next(self, draw):
        """One request, and the body of its answer."""
        kind = draw.randrange(10)
        if kind < 4:
            return framed("GET", self.path), self.shown()
        if kind < 8:
            self.value = draw.randrange(-10**9, 10**9)
            return framed("PUT", self.path, f'<int val="{self.value}"/>'), self.shown()
        if kind == 8:
            return framed("PUT", self.path, '<str val="x"/>'), '<err display="kind differs"/>'
        return framed("GET", f"{self.path}/none"), '<err is="obix:BadUriErr" display="no such object"/>'


def answer(stream):
    """The status and the body of the next answer."""
    status = stream.readline().split(b" ")[1]
    length = None
    while (line := stream.readline()) not in (b"\r\n", b""):
        name, _, value = line.partition(b":")
        if name.lower() == b"content-length":
            length = int(value)
    return status, stream.read(length)


def follow(server_port, point, until, told):
    """Asks in bursts of 1 to 20 requests until the time is over, and tells how many were answered, or what was wrong."""
    import socket

    count, draw, model = 0, random.Random(point), Model(point)
    try:
        link = socket.create_connection(("127.0.0.1", server_port), timeout=120)
        link.setsockopt(socket.IPPROTO_TCP, socket.TCP_NODELAY, 1)
        stream = link.makefile("rb")
        while time.time() < until:
            burst = [model.next(draw) for _ in range(draw.randrange(1, 21))]
            link.sendall(b"".join(request for request, _ in burst))
            for request, wanted in burst:
                status, body = answer(stream)
                if status != b"200" or body.decode() != wanted:
                    raise AssertionError(f"{request!r} had {status!r} {body!r}, not {wanted!r}")
                count += 1
        link.shutdown(socket.SHUT_WR)
        if stream.read():
            raise AssertionError("an answer to nothing")
        told.put((count, None))
    except Exception as fault:
        told.put((count, f"link {point}: {fault!r}"))


def memory(pid):
    """What a process holds, in KB."""
    with open(f"/proc/{pid}/status") as file:
        return next((int(line.split()[1]) for line in file if line.startswith("VmRSS")), 0)


def main():
    words = argparse.ArgumentParser()
    words.add_argument("program")
    words.add_argument("--links", type=int, default=64)
    words.add_argument("--seconds", type=int, default=300)
    asked = words.parse_args()
    server, told, began = Server(asked.program, asked.links, asked.links, 1), multiprocessing.Queue(), time.time()
    until = began + asked.seconds
    runs = [multiprocessing.Process(target=follow, args=(server.port, k, until, told)) for k in range(asked.links)]
    [it.start() for it in runs]
    held = []
    while time.time() < until:
        held.append((time.time() - began, memory(server.run.pid)))
        time.sleep(1)
    ends = [told.get(timeout=TIME) for _ in runs]
    took = time.time() - began
    [it.join(TIME) for it in runs]
    server.end()
    faults = [fault for _, fault in ends if fault]
    count = sum(count for count, _ in ends)
    fifths = [max((kb for at, kb in held if k <= at * 5 / asked.seconds < k + 1), default=0) for k in range(5)]
    print(f"{asked.links} links, {count} answers, {count / took:.0f} a second, none missing, twice or other" if not faults else "\n".join(faults))
    print("memory, KB at most in each fifth of the time:", *fifths)
    sys.exit(bool(faults) or fifths[4] > fifths[1] * 1.05)


if __name__ == "__main__":
    main()
