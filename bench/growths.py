"""The runs of bench/growths.sh. Bounded in number and time; all traffic is on 127.0.0.1."""
import argparse
import collections
import contextlib
import os
import re
import socket
import subprocess
import sys
import tempfile

TIME = 60
SITE = """<obj href="http://h/obix/" is="obix:Lobby">
<list name="contracts"><obj href="def/A"><int name="x" href="def/A/x" val="2" min="0" max="9" writable="true"/></obj></list>
<obj name="a" href="a" is="/obix/def/A"/>
<int name="n" href="n" val="7" min="0" max="10" writable="true"/>
<real name="t" href="t" val="20" writable="true" is="obix:WritablePoint"/>
<obj name="h" href="h" is="obix:History"><ref name="source" href="t"/><list name="data" of="obix:HistoryRecord">
<obj><abstime name="timestamp" val="2026-01-05T07:00:00Z"/><real name="value" val="20"/></obj>
<obj><abstime name="timestamp" val="2026-01-05T07:10:00Z"/><real name="value" val="21"/></obj>
</list></obj>
<obj name="alarms" href="alarms" is="obix:AlarmSubject"><list name="rules">
<obj><ref name="source" href="t"/><real name="low" val="10"/><real name="high" val="30"/><bool name="needsAck" val="true"/></obj>
</list></obj>
</obj>"""


def hrefs(paths):
    return '<obj><list name="hrefs">' + "".join(f'<uri val="/obix/{path}"/>' for path in paths) + "</list></obj>"


WATCHED = ["n", "a", "t", "h/feed", "alarms/feed"]
BATCH = (
    '<list><uri is="obix:Read" val="/obix/n"/><uri is="obix:Write" val="/obix/n"><int name="in" val="9"/></uri>'
    '<uri is="obix:Invoke" val="/obix/t/writePoint"><obj name="in"><real name="value" val="25"/></obj></uri></list>'
)


def requests(watch):
    """A request of each kind, those of a watch on the one of this number: a name, a verb, a path and a body."""
    at = f"/obix/watch/{watch}"
    return [
        ("make", "POST", "/obix/watchService/make", ""),
        ("add", "POST", f"{at}/add", hrefs([*WATCHED, "none"])),
        ("Put", "PUT", "/obix/n", '<int val="8"/>'),
        ("Put in a contract", "PUT", "/obix/def/A/x", '<int val="5"/>'),
        ("writePoint", "POST", "/obix/t/writePoint", '<obj><real name="value" val="35"/></obj>'),
        ("ack", "POST", "/obix/alarm/1/ack", '<obj><str name="ackUser" val="ann"/></obj>'),
        ("pollChanges", "POST", f"{at}/pollChanges", ""),
        ("query", "POST", "/obix/h/query", '<obj><int name="limit" val="2"/></obj>'),
        ("batch", "POST", "/obix/batch", BATCH),
        ("pollRefresh", "POST", f"{at}/pollRefresh", ""),
        ("lease", "PUT", f"{at}/lease", '<reltime val="PT120S"/>'),
        ("remove", "POST", f"{at}/remove", hrefs(["a"])),
        ("Get", "GET", "/obix/t", ""),
        ("delete", "POST", f"{at}/delete", ""),
    ]


def framed(verb, path, body):
    head = f"{verb} {path} HTTP/1.1\r\n" + (f"Content-Length: {len(body)}\r\n" if body else "")
    return f"{head}\r\n{body}".encode()


def split(answers):
    """The whole answers that bytes begin with, and what is behind them."""
    found = []
    while (end := answers.find(b"\r\n\r\n")) >= 0:
        size = end + 4 + int(re.search(rb"Content-Length: (\d+)", answers[:end])[1])
        if len(answers) < size:
            break
        found.append(answers[:size])
        answers = answers[size:]
    return found, answers


class Tries:
    """Runs of the program in which growths are refused."""

    def __init__(self, program, refuse, folder):
        self.program, self.refuse, self.folder = program, refuse, folder
        self.site, self.counted = f"{folder}/site.xml", f"{folder}/counted"
        with open(self.site, "w") as file:
            file.write(SITE)

    def start(self, words, refused, further=False, **streams):
        says = {"LD_PRELOAD": self.refuse, "REFUSED": str(refused), "FURTHER": str(int(further)), "COUNTED": self.counted}
        return subprocess.Popen([*self.program, *words], env={**os.environ, **says}, **streams)

    def growths(self):
        with open(self.counted) as file:
            return int(file.read())

    def stdio(self, refused, further=False):
        """The status, the output and what is told of a run of all requests by `obix stdio`."""
        given = b"".join(framed(*request[1:]) for request in requests(1))
        words = ["stdio", self.site, "--at", "1767600000000", "--tick", "1000"]
        pipes = {"stdin": subprocess.PIPE, "stdout": subprocess.PIPE, "stderr": subprocess.PIPE}
        run = self.start(words, refused, further, **pipes)
        output, told = run.communicate(given, timeout=TIME)
        return run.returncode, output, told


def try_stdio(tries, each, further):
    """Refuses each growth of a run by `obix stdio`, or it and all behind it: tells which request each run left without an answer,
    and how a run ended otherwise than it may."""
    names = [name for name, *_ in requests(1)]
    status, whole, told = tries.stdio(0)
    answers, rest = split(whole)
    assert (status, told, len(answers), rest) == (0, b"", len(names), b""), (status, told, whole)
    refusals = [name for name, answer in zip(names, answers) if b"\r\n\r\n<err " in answer]
    assert not refusals, (refusals, whole)
    growths, ended, otherwise = tries.growths(), collections.Counter(), []
    for refused in range(1, growths + 1, each):
        status, output, told = tries.stdio(refused, further)
        found, rest = split(output)
        if status == 0 and output == whole and told == b"":
            ended["nothing"] += 1
        elif status == 12 and rest == b"" and found == answers[: len(found)] and told == b"obix: out of memory\n":
            ended[names[len(found)] if found else "opening or make"] += 1
        else:
            otherwise.append((refused, status, len(found), told))
    return growths, ended, otherwise


class Ended(Exception):
    """The link ended in place of an answer."""


class Service:
    """`obix serve` with two workers, of one link each."""

    def __init__(self, tries, refused):
        with socket.socket() as free:
            free.bind(("127.0.0.1", 0))
            self.port = free.getsockname()[1]
        words = ["serve", tries.site, "127.0.0.1", str(self.port), "--workers", "2", "--quota", "1"]
        self.run = tries.start(words, refused, stdout=subprocess.PIPE, stderr=subprocess.PIPE)
        self.listens = self.run.stdout.readline() != b""
        self.link = None

    def connect(self):
        if self.link:
            self.link.close()
        self.link = socket.create_connection(("127.0.0.1", self.port), timeout=TIME)
        self.link.setsockopt(socket.IPPROTO_TCP, socket.TCP_NODELAY, 1)

    def ask(self, verb, path, body=""):
        """The status and the body of the answer, with all moments alike."""
        try:
            self.link.sendall(framed(verb, path, body))
            held = b""
            while not (found := split(held))[0]:
                piece = self.link.recv(65536)
                if not piece:
                    raise Ended
                held += piece
        except ConnectionError as error:
            raise Ended from error
        head, _, text = found[0][0].partition(b"\r\n\r\n")
        return head[9:12] + b" " + re.sub(rb"\d{4}-\d\d-\d\dT[\d:.]+Z", b"MOMENT", text)

    def end(self):
        """The status and what is told, once a second link was there too."""
        if self.link:
            self.link.close()
            with contextlib.suppress(OSError):
                socket.create_connection(("127.0.0.1", self.port), timeout=TIME).close()
        try:
            _, told = self.run.communicate(timeout=TIME)
        except subprocess.TimeoutExpired:
            self.run.kill()
            return None, self.run.communicate()[1]
        return self.run.returncode, told


GET_ROOT, POLL = ("GET", "/obix/", ""), ("POST", "/obix/watch/1/pollChanges", "")
NOTHING = b'200 <obj is="obix:WatchOut"><list name="values"/></obj>'


def dialogue():
    """What is asked over links: watch 1, which looks on, and then the requests on watch 2. Before each and behind the last the
    root is got and watch 1 polled. A name and a request each."""
    asked = [("make of the other watch", requests(1)[0][1:]), ("add to it", ("POST", "/obix/watch/1/add", hrefs(WATCHED)))]
    for name, *request in requests(2):
        asked += [("Get of the root", GET_ROOT), ("poll of the other watch", POLL), (name, tuple(request))]
    return [*asked, ("Get of the root", GET_ROOT), ("poll of the other watch", POLL)]


NO_LINK = "beginning to serve"   # it listened, and ended for want of memory before it served a link


class Otherwise(Exception):
    """An answer that no state which may be there gives."""


class Told:
    """The answers of the dialogue with nothing refused: to each of its requests, and to the same one asked a second time, which
    changes nothing more that is shown."""

    def __init__(self, tries):
        self.asked = dialogue()
        self.answers, _ = self.run(tries, False)
        self.growths = tries.growths()
        answers, self.again = self.run(tries, True)
        assert answers == self.answers, [pair for pair in zip(answers, self.answers) if pair[0] != pair[1]]

    def run(self, tries, twice):
        service, answers, again = Service(tries, 0), [], []
        service.connect()
        for place, (_, request) in enumerate(self.asked):
            answers.append(service.ask(*request))
            again.append(service.ask(*request) if twice and place > 0 else answers[-1])
        ended = service.end()
        assert ended == (0, b""), ended
        return answers, again


def found_there(service, told, place):
    """Which answers a request may have that lost its link, asked again over another one, by the state that is found there: as it
    was before the request, or as it is behind it, and nothing between; and whether the poll behind it was taken."""
    name, request = told.asked[place]
    either = {told.answers[place], told.again[place]}
    if place < 2 or request in (GET_ROOT, POLL):
        return either, False
    before, behind = (told.answers[place - 2], NOTHING), (told.answers[place + 1], told.answers[place + 2])
    there = service.ask(*GET_ROOT), service.ask(*POLL)
    if there not in (before, behind):
        raise Otherwise(f"behind {name}: {there}")
    if before == behind:
        return either, False
    return ({told.again[place]}, True) if there == behind else ({told.answers[place]}, False)


def follow(service, told):
    """Asks all, goes on over a second link where the first one ends, and gives the name of the request that lost it, if one did.
    Each answer has to be the one that comes with nothing refused."""
    lost = taken = None
    try:
        service.connect()
    except ConnectionRefusedError:
        return NO_LINK
    for place, (name, request) in enumerate(told.asked):
        allowed = {NOTHING if place == taken else told.answers[place]}
        try:
            answer = service.ask(*request)
        except Ended:
            if lost:
                raise Otherwise(f"the second link ended at {name}") from None
            lost = name
            try:
                service.connect()
            except ConnectionRefusedError:
                if place == 0:   # the first link was made while it ended
                    return NO_LINK
                raise
            allowed, is_taken = found_there(service, told, place)
            taken = place + 2 if is_taken else None
            made = service.ask("GET", "/obix/watch/1/") if place == 0 else b""
            answer = made if made.startswith(b"200 <obj") else service.ask(*request)
        if answer not in allowed:
            raise Otherwise(f"at {name}: {answer}")
    return lost


def try_serve(tries, each):
    """Refuses each growth of `obix serve`: tells which request lost its answer, and how a run went otherwise than it may."""
    told, ended, otherwise = Told(tries), collections.Counter(), []
    for refused in range(1, told.growths + 1, each):
        service, place = Service(tries, refused), "opening"
        try:
            if service.listens:
                place = follow(service, told) or "nothing"
        except (Otherwise, Ended, OSError) as fault:
            place = "otherwise"
            otherwise.append((refused, repr(fault)))
        status, line = service.end()
        ended[place] += 1
        if (status, line) != (12, b"obix: out of memory\n") and (place, status, line) != ("nothing", 0, b""):
            otherwise.append((refused, place, status, line))
    return told.growths, ended, otherwise


def tell(what, tried):
    growths, ended, otherwise = tried
    places = ", ".join(f"{name} {count}" for name, count in ended.items())
    print(f"{what}: {growths} growths; what the runs left without an answer: {places}")
    for run in otherwise:
        print("  otherwise:", *run)
    return not otherwise


def main():
    reads = argparse.ArgumentParser()
    reads.add_argument("program")
    reads.add_argument("refuse")
    reads.add_argument("--each", type=int, default=1)
    words = reads.parse_args()
    with tempfile.TemporaryDirectory() as folder:
        tries = Tries([words.program], words.refuse, folder)
        passed = [
            tell("stdio, one growth refused", try_stdio(tries, words.each, False)),
            tell("stdio, one and all behind it", try_stdio(tries, words.each, True)),
            tell("serve, one growth refused", try_serve(tries, words.each)),
        ]
    sys.exit(0 if all(passed) else 1)


main()
