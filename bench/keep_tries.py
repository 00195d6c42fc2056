"""The tries of bench/keep.sh. Bounded in time and count; all traffic is on 127.0.0.1."""
import argparse
import collections
import concurrent.futures
import contextlib
import http.client
import os
import random
import re
import resource
import shutil
import signal
import socket
import subprocess
import sys
import tempfile
import threading
import time
import xml.etree.ElementTree as ET

from keep_clients import Client, Numbers, answer, items, site
from serve_tries import asked, free_port
from serve_tries import site as points_site
from soak import answer as next_answer
from soak import framed

CLIENTS = 8
TIME = 300                   # how long a server may take to begin or to end, in seconds
FAULT = (14, "obix: record fault")
LOCKED = (14, "obix: record fault: locked")
FULL = (14, "obix: record fault: full")
ADDRESSES = 600_000          # kilobytes of address space, as by `ulimit -v`
NUMBERS_ROOM = 20_000        # bytes that 100,000 makes may add to a record
FIRST_LINE = b"obix-record 1"
SILENCE = 60                 # in seconds, less than a server waits for a client that is silent
END = 2.5                    # in seconds: so soon it ends once a call of the disk has failed


class Skipped(Exception):
    """The machine has not what a try needs."""


class Keep:
    """`obix keep` on a free port of loopback, over files of a room."""

    def __init__(self, program, room, site="site.xml", record="record", workers=16, quota=1_000_000, port=None, before=(), **how):
        self.port, self.record = port or free_port("127.0.0.1"), os.path.join(room, record)
        words = [*before, program, "keep", os.path.join(room, site), self.record, "127.0.0.1", str(self.port)]
        self.run = subprocess.Popen([*words, "--workers", str(workers), "--quota", str(quota)], stdout=subprocess.PIPE,
                                    stderr=subprocess.PIPE, text=True, start_new_session=True, **how)

    def __enter__(self):
        """It listens."""
        line = self.run.stdout.readline()
        if line != f"listening 127.0.0.1 {self.port}\n":
            raise AssertionError(f"printed {line!r} and ended with {self.ended()}")
        return self

    def __exit__(self, *fault):
        self.kill()

    def kill(self):
        if self.run.poll() is None:
            os.killpg(self.run.pid, signal.SIGKILL)
            self.run.communicate()

    def ended(self):
        """Its status and what it said, at an end of its own."""
        try:
            _, errors = self.run.communicate(timeout=TIME)
        except subprocess.TimeoutExpired:
            self.kill()
            raise AssertionError(f"it hasn't ended within {TIME} s") from None
        return self.run.returncode, errors.strip()

    def link(self, timeout=120):
        return http.client.HTTPConnection("127.0.0.1", self.port, timeout=timeout)

    def put(self, link, point, value):
        """Whether a write was answered; False where the link ended in its place."""
        try:
            root = answer(link, "PUT", f"/obix/{point}", f'<int val="{value}"/>')
        except TimeoutError:
            raise AssertionError(f"a write of {value} has neither an answer nor an end") from None
        except (OSError, http.client.HTTPException):
            link.close()
            return False
        assert root.get("val") == str(value), f"a write of {value} was answered {ET.tostring(root)}"
        return True

    def value(self, point="p0"):
        link = self.link()
        try:
            return int(answer(link, "GET", f"/obix/{point}").get("val"))
        finally:
            link.close()


@contextlib.contextmanager
def room_of(text, under=None):
    """A folder with this site file, which others may read."""
    with tempfile.TemporaryDirectory(prefix="obix-keep.", dir=under) as room:
        os.chmod(room, 0o755)
        with open(f"{room}/site.xml", "w") as file:
            file.write(text)
        yield room


def bytes_of(path):
    with open(path, "rb") as file:
        return file.read()


def write_to(path, data):
    with open(path, "wb") as file:
        file.write(data)


def must(found, wanted, what):
    if found != wanted:
        raise AssertionError(f"{what}: {found}, and has to be {wanted}")


def piped(server, requests, at_once=50):
    """The bodies of the answers to many requests, sent some at a time over one connection."""
    link = socket.create_connection(("127.0.0.1", server.port), timeout=TIME)
    stream, bodies = link.makefile("rb"), []
    for first in range(0, len(requests), at_once):
        some = requests[first:first + at_once]
        link.sendall(b"".join(some))
        bodies += [next_answer(stream)[1] for _ in some]
    link.close()
    return bodies


# ---- killed


def look(server, clients, numbers):
    """Each client finds what it was acknowledged; gives the moment that the site began at."""
    numbers.restart()
    asks = [[("POST", "/obix/alarms/query"), ("POST", "/obix/watchService/make"), ("GET", "/obix/about")], *[it.questions() for it in clients]]
    bodies = iter(piped(server, [framed(*ask) for some in asks for ask in some]))
    (alarms, watch, about), *answers = [[ET.fromstring(next(bodies)) for _ in some] for some in asks]
    alarms = items(alarms, "data")
    must([int(it.get("href").split("/")[3]) for it in alarms], list(range(1, len(alarms) + 1)), "the numbers of alarms")
    for client, some in zip(clients, answers):
        client.look(some, alarms)
    numbers.take(int(watch.get("href").split("/")[3]))
    return next(it.get("val") for it in about if it.get("name") == "serverBootTime")


def loaded(server, clients, wait):
    """All clients ask for a random time, and then the server is killed under them."""
    over = threading.Event()
    runs = [threading.Thread(target=it.run, args=(server.port, over)) for it in clients]
    [it.start() for it in runs]
    time.sleep(wait)
    over.set()
    server.kill()
    [it.join(TIME) for it in runs]
    faults = [it.fault for it in clients if it.fault]
    if faults:
        raise AssertionError("; ".join(faults))


def killed(program, given):
    draw, numbers = random.Random(given.kills), Numbers()
    clients, port, booted, starts = [Client(k, numbers) for k in range(CLIENTS)], free_port("127.0.0.1"), None, 0
    with room_of(site(CLIENTS), given.room) as room:
        for kill in range(given.kills + 1):
            if kill % 4 == 3:
                start = Keep(program, room, port=port)
                time.sleep(draw.uniform(0, 0.1))
                start.kill()
                starts += 1
            with Keep(program, room, port=port) as server:
                at = look(server, clients, numbers)
                must(at, booted or at, "serverBootTime")
                booted = at
                if kill < given.kills:
                    loaded(server, clients, draw.uniform(0.02, 0.5))
        size, told = os.path.getsize(f"{room}/record"), compacted(program, room)
        with Keep(program, room, record="short", port=port) as server:
            must(look(server, clients, numbers), booted, "serverBootTime of the shorter record")
    writes, done, undone = (sum(getattr(it, name) for it in clients) for name in ("writes", "done", "undone"))
    return (f"{given.kills} kills and {starts} while it started; {writes:,} writes acknowledged, none lost; of {done + undone} that "
            f"weren't answered {done} were done; {len(numbers.given):,} watches, no number twice; a record of {size:,} bytes; {told}, and all of it is there")


# ---- a shorter record


def compact(program, room, record="record", new="short"):
    """Its status, and what it printed or said."""
    words = [program, "compact", f"{room}/site.xml", f"{room}/{record}", f"{room}/{new}"]
    run = subprocess.run(words, capture_output=True, text=True, timeout=TIME)
    return run.returncode, run.stdout or run.stderr.strip()


def compacted(program, room):
    """The line of one that goes well; the old record stays."""
    data = bytes_of(f"{room}/record")
    status, line = compact(program, room)
    assert status == 0 and re.fullmatch(r"compacted \d+ of \d+\n", line), f"ended with {status}, {line!r}"
    must(bytes_of(f"{room}/record"), data, "the old record behind it")
    return line.strip()


def shorter(program, given):
    """Of many writes to plain points the last ones stay, and nothing is written over; a record that is in use has none."""
    points, writes = 50, min(given.entries, 20_000)
    with room_of(points_site(points), given.room) as room:
        with Keep(program, room) as server:
            piped(server, [framed("PUT", f"/obix/p{k % points}", f'<int val="{k + 1}"/>') for k in range(writes)])
            must(compact(program, room), LOCKED, "the end while a server has it")
            values = [server.value(f"p{point}") for point in range(points)]
        must(sorted(os.listdir(room)), ["record", "site.xml"], "what is in the folder")
        began = time.time()
        must(compact(program, room), (0, f"compacted {points} of {writes}\n"), "what is printed")
        took, data = time.time() - began, bytes_of(f"{room}/short")
        with Keep(program, room, record="short") as server:
            must([server.value(f"p{point}") for point in range(points)], values, "the values of the shorter record")
        must(bytes_of(f"{room}/short"), data, "the shorter record behind a start")
        must(compact(program, room), (2, "obix: refused: New"), "the end with a new file that is there")
        must(bytes_of(f"{room}/short"), data, "that file")
        must(compact(program, room, "none", "other"), (3, f"obix: read fault: {room}/none: no such file"), "the end without a record")
        must(sorted(os.listdir(room)), ["record", "short", "site.xml"], "what is in the folder then")
        write_to(f"{room}/damaged", b"O" + bytes_of(f"{room}/record")[1:])
        must(compact(program, room, "damaged", "other"), (2, "obix: refused: Record 0"), "the end with a damaged record")
        return f"{points} of {writes:,} entries, {len(data):,} of {os.path.getsize(f'{room}/record'):,} bytes, in {took:.2f} s"


# ---- want of memory


def reads(path, count):
    rows = f'<uri is="obix:Read" val="{path}"/>' * count
    return f"<list>{rows}</list>"


def few_addresses():
    resource.setrlimit(resource.RLIMIT_AS, (ADDRESSES * 1024, ADDRESSES * 1024))


def write_on(server, over, told):
    """Writes of rising values over one kept connection, until it is over."""
    link, count = server.link(2 * TIME), 0
    while not over.is_set():
        if not server.put(link, "p0", count + 1):
            told.append(f"a link that wrote {count + 1} ended")
            break
        count += 1
    link.close()
    return count


def wanting(program, given):
    """A batch whose answer has no room ends its own link, and nothing else."""
    over, told, ends, workers = threading.Event(), [], 0, 4
    with room_of(points_site(2_000), given.room) as room:
        with Keep(program, room, workers=workers, preexec_fn=few_addresses) as server, concurrent.futures.ThreadPoolExecutor(1) as one:
            writer = one.submit(write_on, server, over, told)
            try:
                for number in range(given.batches):
                    link = server.link(2 * TIME)
                    try:
                        asked(link, "POST", "/obix/batch", reads("/obix/", 1_000))
                    except TimeoutError:
                        raise AssertionError(f"batch {number + 1} of {given.batches} has neither an answer nor an end") from None
                    except (OSError, http.client.HTTPException):
                        ends += 1
                    link.close()
                    if server.run.poll() is not None:
                        raise AssertionError(f"behind batch {number + 1} of {given.batches} the program ended with {server.ended()}")
            finally:
                over.set()
            count = writer.result()
            assert not told, told[0]
            links = [server.link(SILENCE) for _ in range(workers)]   # each worker has one
            for number, link in enumerate(links):
                try:
                    must(answer(link, "GET", "/obix/p0").get("val"), str(count), "the value that was written last")
                except TimeoutError:
                    raise AssertionError(f"{number} of {workers} workers are left") from None
            [it.close() for it in links]
        with Keep(program, room) as server:
            must(server.value(), count, "the value behind a restart")
    return f"{ends} of {given.batches} batches had no answer, and {count} writes beside them all had one"


# ---- a device that refuses


def until_refused(server, limit):
    """Writes rising values until one isn't answered, and gives that one."""
    link, count = server.link(), 0
    while server.put(link, "p0", count + 1):
        count += 1
        assert count < limit, f"{count} writes were answered"
    return count + 1


def ends_at_once(server, fault):
    """After how many seconds the program has ended, though nobody asks it for anything any more."""
    began = time.time()
    must(server.ended(), fault, "the end")
    took = time.time() - began
    assert took <= END, f"it ended after {took:.1f} s"
    return took


def idle_link(server):
    """A link that has had an answer, and stays."""
    link = server.link()
    answer(link, "GET", "/obix/p0")
    return link


def refused(program, room, workers=4, idle=0, room_again=lambda: None, fault=FULL, **how):
    """A write that the disk doesn't take isn't answered, the program ends with 14 at once, whatever links and workers are idle, and
    no answered write is lost."""
    with Keep(program, room, workers=workers, **how) as server:
        idle_links = [idle_link(server) for _ in range(idle)]
        last = until_refused(server, 20_000)
        took = ends_at_once(server, fault)
        for link in idle_links:
            link.close()
    room_again()
    with Keep(program, room) as server:
        found = server.value()
        assert found in (last - 1, last), f"{found} is there, {last - 1} was answered, {last} was asked"
        link = server.link()
        assert server.put(link, "p0", last + 1), "a write isn't answered though there is room again"
        link.close()
    return f"{workers} workers, {idle} idle links: {last - 1} writes answered, the next one {'done' if found == last else 'not done'}, " \
        f"ended after {took:.1f} s"


def full_disk(program, given):
    with room_of(points_site(1), given.room) as room:
        disk = f"{room}/disk"
        os.mkdir(disk)
        mounted = subprocess.run(["mount", "-t", "tmpfs", "-o", "size=64k", "obix-keep", disk], capture_output=True, text=True)
        if mounted.returncode:
            raise Skipped(f"no small disk can be mounted ({mounted.stderr.strip()})")
        try:
            told = []
            for workers, idle in ((1, 0), (64, 0), (64, 63)):
                subprocess.run(["mount", "-o", "remount,size=64k", disk], check=True)
                shutil.copy(f"{room}/site.xml", disk)
                told.append(refused(program, disk, workers=workers, idle=idle, room_again=lambda: subprocess.run(
                    ["mount", "-o", "remount,size=1m", disk], check=True)))
                os.remove(f"{disk}/record")
            return "; ".join(told)
        finally:
            subprocess.run(["umount", disk], check=True)


def no_room_to_grow():
    signal.signal(signal.SIGXFSZ, signal.SIG_IGN)
    resource.setrlimit(resource.RLIMIT_FSIZE, (10_000, 10_000))


def small_file(program, given):
    with room_of(points_site(1), given.room) as room:
        return refused(program, room, fault=FAULT, preexec_fn=no_room_to_grow)


def disturbed(program, room, call, how):
    """Four writes while strace does this to one call. Gives how many were answered and asked; nothing where all of it went well."""
    before = ["strace", "-f", "-q", "-o", "/dev/null", "-e", f"trace={call}", "-e", f"inject={call}:{how}"]
    server, answered = Keep(program, room, before=before, workers=2), 0
    try:
        if server.run.stdout.readline():
            link = server.link()
            while answered < 4 and server.put(link, "p0", answered + 11):
                answered += 1
            if answered == 4:
                return None
        end = server.ended()
    finally:
        server.kill()
    must(end, FAULT if "error" in how else (-signal.SIGKILL, ""), f"the end with {call}:{how}")
    return answered, answered + 1


def each_call(program, given):
    """Each call that the record's device makes fails once, and the server is killed at each: what was answered is there."""
    if not shutil.which("strace"):
        raise Skipped("no strace")
    tried = 0
    for call, begun, how in ((call, begun, how) for call in ("pwrite64", "fdatasync", "fsync", "ftruncate") for begun in (0, 1)
                             for how in ("error=EIO", "signal=KILL")):
        for number in range(1, 30):
            with room_of(points_site(1), given.room) as room:
                if begun:
                    written(program, room, [("p0", 10)])
                done = disturbed(program, room, call, f"{how}:when={number}")
                if done is None:
                    break
                with Keep(program, room) as server:
                    found, last = server.value(), (10 if begun else 0)
                wanted = [last if it == 0 else it + 10 for it in done]
                assert found in wanted, f"{found} is there with {call}:{how}:when={number}, answered {wanted[0]}, asked {wanted[1]}"
                tried += 1
    return f"{tried} calls"


# ---- a record that can't be used


def unopened(program, given):
    """What isn't a file that can be written can't be opened: each is 14, and no file is made or changed."""
    nobody = {"user": 65534, "group": 65534, "extra_groups": []} if os.geteuid() == 0 else {}
    with room_of(points_site(1), given.room) as room:
        write_to(f"{room}/read-only", b"")
        os.chmod(f"{room}/read-only", 0o444)
        os.mkdir(f"{room}/folder")
        os.mkfifo(f"{room}/pipe")
        os.chmod(f"{room}/pipe", 0o666)
        causes = {"read-only": ": not allowed", "no-rights-to-make": ": not allowed", "folder": ": is a folder",
                  "no-folder/record": ": no such folder", "pipe": "", "/dev/null": ""}
        os.chmod(room, 0o555)
        for name, cause in causes.items():
            must(Keep(program, room, record=name, **nobody).ended(), (FAULT[0], FAULT[1] + cause), f"the end with {name}")
        os.chmod(room, 0o755)
        must(sorted(os.listdir(room)), ["folder", "pipe", "read-only", "site.xml"], "what is in the folder")
    return ", ".join(causes)


def second_server(program, given):
    with room_of(points_site(1), given.room) as room, Keep(program, room) as first:
        link = first.link()
        assert first.put(link, "p0", 7)
        data = bytes_of(first.record)
        must(Keep(program, room).ended(), LOCKED, "the end of the second server")
        must(bytes_of(first.record), data, "the record behind it")
        assert first.put(link, "p0", 8), "the first server doesn't answer any more"
        link.close()


def written(program, room, values, **how):
    """The bytes of a record of these writes, each a point and a value."""
    with Keep(program, room, **how) as server:
        link = server.link()
        for point, value in values:
            assert server.put(link, point, value)
        link.close()
    return bytes_of(server.record)


def no_record(program, given):
    """A file that is no record is refused and left as it is."""
    with room_of(points_site(1), given.room) as room:
        data = written(program, room, [("p0", value) for value in (1, 2, 3)])
        first = ends_of(data)[0]
        cases = {"a text": (b"what a cook needs\n", 0), "the site file": (bytes_of(f"{room}/site.xml"), 0),
                 "a record's first letter": (b"O" + data[1:], 0), "15 bytes": (b"obix-record 2\n\n", 0),
                 "another body": (data[:first] + data[first:].replace(b"<int", b"<inf", 1), first + 1)}
        for name, (content, place) in cases.items():
            write_to(f"{room}/other", content)
            must(Keep(program, room, record="other").ended(), (2, f"obix: refused: Record {place}"), f"the end with {name}")
            must(bytes_of(f"{room}/other"), content, f"{name} behind it")
    return ", ".join(cases)


def another_site(program, given):
    """A site file that gives another reply is told, and the record stays; one with a point more goes on."""
    with room_of(points_site(3), given.room) as room:
        data = written(program, room, [("p0", 1), ("p1", 2), ("p2", 3)])
        text = bytes_of(f"{room}/site.xml").decode()
        one_more = text.replace("</obj>", '<int href="q" val="0" writable="true"/></obj>')
        for entry in range(3):
            write_to(f"{room}/other.xml", text.replace(f'href="p{entry}"', f'href="p{entry}" unit="obix:units/celsius"').encode())
            must(Keep(program, room, site="other.xml").ended(), (13, f"obix: illegal at {entry}"), "the end with another site file")
            must(bytes_of(f"{room}/record"), data, "the record behind it")
        write_to(f"{room}/other.xml", text.replace('<int href="p1" val="0" writable="true"/>', "").encode())
        must(Keep(program, room, site="other.xml").ended(), (13, "obix: illegal at 1"), "the end without a point")
        write_to(f"{room}/other.xml", one_more.encode())
        with Keep(program, room, site="other.xml") as server:
            must([server.value(point) for point in ("p0", "p1", "p2", "q")], [1, 2, 3, 0], "the values with a point more")


# ---- copies and torn files


class Writer:
    """Writes one rising value to two points by batches, and says what was answered and what was asked."""

    def __init__(self, server):
        self.server, self.answered, self.asked, self.over = server, 0, 0, threading.Event()

    def run(self):
        link = self.server.link()
        while not self.over.is_set():
            self.asked += 1
            rows = "".join(f'<uri is="obix:Write" val="/obix/{point}"><int name="in" val="{self.asked}"/></uri>' for point in ("p0", "p1"))
            answer(link, "POST", "/obix/batch", f"<list>{rows}</list>")
            self.answered = self.asked
        link.close()


def slow_copy(source, to):
    """As a busy machine copies: some bytes at a time."""
    with open(source, "rb") as file, open(to, "wb") as copy:
        while piece := file.read(8_192):
            copy.write(piece)
            time.sleep(0.002)


def copies(program, given):
    """A copy of the record, made while it is written, opens with a state that was while it was made."""
    draw = random.Random(given.copies)
    with room_of(points_site(2), given.room) as room, Keep(program, room) as server, concurrent.futures.ThreadPoolExecutor(1) as one:
        writer = Writer(server)
        running = one.submit(writer.run)
        try:
            for number in range(given.copies):
                time.sleep(draw.uniform(0.05, 0.3))
                low = writer.answered
                (slow_copy if number % 2 else shutil.copyfile)(server.record, f"{room}/copy")
                high = writer.asked
                with Keep(program, room, record="copy") as second:
                    found = [second.value("p0"), second.value("p1")]
                assert found[0] == found[1] and low <= found[0] <= high, f"{found} is in a copy made between {low} and {high}"
        finally:
            writer.over.set()
        running.result()
    return f"{given.copies} copies of a record that had {writer.answered} entries in the end"


def ends_of(data):
    """Where the entries of a record end, in bytes."""
    at, ends = data.index(b"\n", len(FIRST_LINE) + 1), []   # behind the line of the opening
    while data[at:at + 1] == b"\n":
        head = re.match(rb"\d+ \w+ (\d+) (\d+) (\d+)\n", data[at + 1:])
        at += 1 + head.end() + sum(int(it) for it in head.groups())
        ends.append(at)
    must(data[at:], b"\0", "what stands behind the last entry")
    return ends


def cut_at(data, ends, n):
    """What the first n bytes of a record are: how many entries they say, and the place that is refused, if one is."""
    count = sum(end <= n for end in ends)
    at = ends[count - 1] if count else len(FIRST_LINE)
    return count, None if n <= max(at + 1, len(FIRST_LINE) + 1) else at


def torn(program, given):
    """The front of a record up to any byte, which is refused where more than an open gate stands behind the entries, and one whose
    last entry isn't whole, or is, behind a gate that isn't open."""
    with room_of(points_site(1), given.room) as room:
        data = written(program, room, [("p0", value) for value in (1, 2, 3)])
        ends = ends_of(data)
        must(len(ends), 3, "the number of entries")
        cases = [(data[:n], *cut_at(data, ends, n)) for n in range(len(data) + 1)]
        last, size = ends[1], ends[2] - ends[1]
        for filler in (b"\0", b"\n", b"x"):
            cases += [(data[:last] + b"\0" + data[last + 1:last + 1 + n] + filler * (size - n), 2, None) for n in range(0, size + 1, 3)]
        cases += [(data[:last] + b"x" + data[last + 1:last + 1 + n], 2, None) for n in range(size + 1)]
        # no crash leaves these: another gate in the middle, another byte in an entry's line, one behind a closed gate
        cases += [(data[:ends[0]] + b"x" + data[ends[0] + 1:], 1, ends[0]), (data[:last + 1] + b"x" + data[last + 2:], 2, last),
                  (data[:last] + b"x" + data[last + 1:] + b"x", 2, last)]
        for content, value, place in cases:
            write_to(f"{room}/torn", content)
            if place is not None:
                must(Keep(program, room, record="torn").ended(), (2, f"obix: refused: Record {place}"), f"the end with {content[-60:]!r}")
                must(bytes_of(f"{room}/torn"), content, "a refused record")
                continue
            with Keep(program, room, record="torn", workers=1) as server:
                must(server.value(), value, f"the value with {content[-60:]!r} at the end of {len(content)} bytes")
            left = bytes_of(f"{room}/torn")
            must(left, data[:ends[value - 1]] + b"\0" if value else FIRST_LINE + b"\0", "the record behind a start")
    return f"{len(cases)} files"


# ---- syncs and figures


def traced(program, given):
    """The system's calls of a server, as strace tells them: an answer comes behind the two syncs of its change, and a read has none."""
    if not shutil.which("strace"):
        raise Skipped("no strace")
    with room_of(points_site(1), given.room) as room:
        how = ["strace", "-f", "-q", "-s", "40", "-o", f"{room}/calls", "-e", "trace=pwrite64,fdatasync,fsync,write,sendto,writev,sendmsg"]
        with Keep(program, room, before=how, workers=1, quota=1) as server:
            link = server.link()
            for value in range(1, 51):
                assert server.put(link, "p0", value)
                answer(link, "GET", "/obix/p0")
            link.close()
            must(server.ended(), (0, ""), "the end")
        calls = [it.split(None, 1)[1] for it in bytes_of(f"{room}/calls").decode().splitlines()]
    began, end = (next(k for k, it in enumerate(calls) if word in it) for word in ("listening", "served"))
    line = [it.partition("(")[0] for it in calls[began + 1:end] if re.match(r"[a-z]", it)]
    change = ["pwrite64", "fdatasync", "pwrite64", "fdatasync"]
    sent = sorted(set(line) - set(change))
    if line != (change + sent * 2) * 50:
        raise AssertionError(f"the calls of 50 writes and 50 reads begin {line[:12]}, and are {collections.Counter(line)}")
    return "two writes and two syncs a change, none a read; each answer behind its syncs"


def sync_time(room):
    """How long two writes and two syncs take that a program of a few lines does, in seconds."""
    file, began = os.open(f"{room}/probe", os.O_RDWR | os.O_CREAT), time.time()
    for number in range(200):
        for _ in range(2):
            os.pwrite(file, b"x" * 60, number * 120)
            os.fdatasync(file)
    os.close(file)
    return (time.time() - began) / 200


def a_write(program, given):
    count = 500
    with room_of(points_site(1), given.room) as room:
        data = written(program, room, [("p0", 1)])
        probe = sync_time(room)
        with Keep(program, room) as server:
            link, began = server.link(), time.time()
            for value in range(2, count + 2):
                assert server.put(link, "p0", value)
            took = (time.time() - began) / count
            link.close()
        added = os.path.getsize(server.record) - len(data)
    return f"{added / count:.1f} bytes and {took * 1000:.2f} ms, of which its disk's two writes and syncs alone take {probe * 1000:.2f} ms"


def watches(program, given):
    with room_of(points_site(1), given.room) as room, Keep(program, room) as server:
        before, began, made, last = os.path.getsize(server.record), time.time(), 0, 0
        while made < given.watches:
            bodies = piped(server, [framed("POST", "/obix/watchService/make")] * 500)
            numbers = [int(re.search(rb'href="/obix/watch/(\d+)/"', it)[1]) for it in bodies]
            assert numbers == list(range(numbers[0], numbers[0] + 500)) and numbers[0] > last, f"{numbers[0]} comes behind {last}"
            piped(server, [framed("POST", f"/obix/watch/{it}/delete") for it in numbers])
            made, last = made + 500, numbers[-1]
        added = os.path.getsize(server.record) - before
        assert added <= NUMBERS_ROOM * max(1, made / 100_000), f"{added} bytes for {made} makes and deletes"
        return f"{made:,} made and deleted add {added:,} bytes to the record, in {time.time() - began:.0f} s"


def memory(pid):
    """The most that a process has held, in MB."""
    with open(f"/proc/{pid}/status") as file:
        return next(int(line.split()[1]) // 1024 for line in file if line.startswith("VmHWM"))


def processor(pid):
    """The processor seconds of a process."""
    with open(f"/proc/{pid}/stat") as file:
        return sum(int(it) for it in file.read().rpartition(")")[2].split()[11:13]) / os.sysconf("SC_CLK_TCK")


def restart(program, given):
    """The entries are made where a sync costs nothing, if there is such a place."""
    under = given.room or ("/dev/shm" if os.access("/dev/shm", os.W_OK) else None)
    with room_of(points_site(100), under) as room:
        with Keep(program, room) as server:
            bodies = piped(server, [framed("PUT", f"/obix/p{k % 100}", f'<int val="{k + 1}"/>') for k in range(given.entries)])
            must(len(bodies), given.entries, "the number of answers")
        began = time.time()
        with Keep(program, room) as server:
            took, worked = time.time() - began, processor(server.run.pid)
            must(server.value(f"p{(given.entries - 1) % 100}"), given.entries, "the last value")
            return (f"{given.entries:,} entries, {os.path.getsize(server.record):,} bytes: {took:.2f} s, of which the program works {worked:.2f}; "
                    f"{memory(server.run.pid)} MB at the most")


def main():
    words = argparse.ArgumentParser()
    words.add_argument("program")
    for name, number in (("--kills", 200), ("--batches", 100), ("--copies", 20), ("--entries", 100_000), ("--watches", 100_000)):
        words.add_argument(name, type=int, default=number)
    words.add_argument("--room", help="where the folders of the tries are made; that of temporary files if it isn't given")
    words.add_argument("--only", default="", help="only tries whose name has this text")
    given, right = words.parse_args(), True
    tries = [("killed under eight clients", killed), ("links for which memory is wanting", wanting), ("a full disk", full_disk),
             ("a file that may not grow", small_file),
             ("each call failing, and a kill at each", each_call), ("a record that can't be opened", unopened), ("a second server", second_server),
             ("what is no record", no_record), ("another site file", another_site), ("copies while it is written", copies), ("a shorter record", shorter),
             ("torn at each byte", torn), ("answers behind their syncs", traced),
             ("figures: a write", a_write), ("figures: watches", watches), ("figures: a restart", restart)]
    for name, run in tries:
        if given.only not in name:
            continue
        try:
            told = run(given.program, given)
            print(f"{name}: as it must be{'; ' + told if told else ''}", flush=True)
        except Skipped as why:
            print(f"{name}: skipped; {why}", flush=True)
        except Exception as fault:
            right = False
            print(f"{name}: NOT as it must be; {fault!r}", flush=True)
    return 0 if right else 1


if __name__ == "__main__":
    sys.exit(main())
