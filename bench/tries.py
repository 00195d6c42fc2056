"""What the tries of the tools share: a room with ports and programs, a server with its site, writes, alarms, kills.

All traffic is on 127.0.0.1. A program is ended by its own process, never by a name, and all of them at the end.
"""
import argparse
import collections
import http.client
import pathlib
import random
import shutil
import signal
import socket
import subprocess
import sys
import tempfile
import threading
import time
import xml.etree.ElementTree as ET

TOP = pathlib.Path(__file__).resolve().parent.parent
LOST = (OSError, http.client.HTTPException, ET.ParseError)     # what a request meets while its server is killed


class Missing(Exception):
    """A package that a try needs isn't installed."""


def until(holds, seconds=40, pause=0.02):
    """After how many seconds something holds; None where it doesn't within `seconds`."""
    began = time.monotonic()
    while time.monotonic() < began + seconds:
        if holds():
            return time.monotonic() - began
        time.sleep(pause)
    return None


class Process:
    """A program that can be killed and started again. What it says is in a file of the room."""

    def __init__(self, room, name, words, port=None):
        self.file, self.words, self.port, self.run = room.folder / f"{name}.out", [str(it) for it in words], port, None
        room.processes.append(self)

    def start(self):
        for _ in range(5):                                 # a connection of any program may have the port for a moment
            with open(self.file, "ab") as out:
                self.run = subprocess.Popen(self.words, stdin=subprocess.DEVNULL, stdout=out, stderr=out)
            if not self.port or until(lambda: self.run.poll() is not None or self.listens()) is not None and self.run.poll() is None:
                return self
            time.sleep(1)
        raise SystemExit(f"{self.words[0]} doesn't listen on {self.port}: {self.said()[-500:]}")

    def listens(self):
        try:
            socket.create_connection(("127.0.0.1", self.port), 1).close()
            return True
        except OSError:
            return False

    def kill(self, how=signal.SIGKILL):
        """Ends it, where it runs, and gives its status."""
        if self.run is None:
            return None
        if self.run.poll() is None:
            self.run.send_signal(how)
        return self.run.wait(60)

    def said(self):
        return self.file.read_text(errors="replace")

    def processor(self):
        """The seconds of the processor that it has taken."""
        told = pathlib.Path(f"/proc/{self.run.pid}/stat").read_text().rpartition(")")[2].split()
        return (int(told[11]) + int(told[12])) / 100


class Server(Process):
    """`obix keep` of a site, with its record in the room, or `obix serve`."""

    def __init__(self, room, name, text, command="keep", workers=16):
        self.site, self.record, port = room.folder / f"{name}.xml", room.folder / f"{name}.record", room.free_port()
        self.site.write_text(text)
        files = [self.site, self.record] if command == "keep" else [self.site]
        super().__init__(room, name, [room.program, command, *files, "127.0.0.1", port, "--workers", workers, "--quota", 1_000_000], port)
        self.url = f"http://127.0.0.1:{port}/obix/"

    def ask(self, verb, path, body=None, seconds=10):
        """The root of the answer; `path` is below /obix/."""
        link = http.client.HTTPConnection("127.0.0.1", self.port, timeout=seconds)
        try:
            link.request(verb, f"/obix/{path}", body, {"Content-Type": "text/xml"} if body else {})
            return ET.fromstring(link.getresponse().read())
        finally:
            link.close()

    def put(self, path, value):
        return self.ask("PUT", path, f'<int val="{value}"/>')

    def acknowledge(self, number, user="ann"):
        return self.ask("POST", f"alarm/{number}/ack", f'<obj><str name="ackUser" val="{user}"/></obj>')

    def value(self, path):
        return int(self.ask("GET", path).get("val"))

    def asked(self, path):
        """All that a history or the alarm subject has, by one query."""
        reply = self.ask("POST", f"{path}/query", '<obj><int name="limit" val="1000000"/></obj>', 60)
        return list(next(it for it in reply if it.get("name") == "data"))

    def records(self, path):
        """The records of a history, each as (moment, value)."""
        return [tuple(it.get("val") for it in record) for record in self.asked(path)]

    def writes(self, points, seconds, rate=0):
        """Rising values to points, a thread each, `rate` a second where it is given. The threads, and how many were answered."""
        done, begin = dict.fromkeys(points, 0), int(time.time()) % 10_000_000 * 10_000

        def work(point):
            link, value, end = None, begin, time.monotonic() + seconds
            while time.monotonic() < end:
                value += 1
                try:
                    link = link or http.client.HTTPConnection("127.0.0.1", self.port, timeout=5)
                    link.request("PUT", f"/obix/{point}", f'<int val="{value}"/>', {"Content-Type": "text/xml"})
                    done[point] += b"<int" in link.getresponse().read()
                except LOST:
                    link = None                            # another one is dialled
                    time.sleep(0.05)
                time.sleep(1 / rate if rate else 0)

        return started(work, points), done

    def alarms(self, seconds):
        """Raises, ends and acknowledges alarms of m and q until the time is over. The thread, alone in a list."""
        def work(end):
            turn = 0
            while time.monotonic() < end:
                turn += 1
                try:
                    for point in "mq":
                        self.put(point, 200 + turn if turn % 2 else turn % 100)
                    if turn % 3 == 0:
                        self.acknowledge(turn // 2)
                except LOST:
                    pass
                time.sleep(0.05)

        return started(work, [time.monotonic() + seconds])


def started(work, each):
    """A thread of `work` for each."""
    threads = [threading.Thread(target=work, args=(it,), daemon=True) for it in each]
    for it in threads:
        it.start()
    return threads


def site(points, capacity=None, host="plant"):
    """A site of the int points p0, p1 .., each with a history h0, h1 .. by path, and of m and q with alarm rules (0 to 100): m is to
    be acknowledged, q isn't."""
    kept = f'<int name="capacity" val="{capacity}"/>' if capacity else ""
    numbered = "".join(f'<int name="p{n}" href="p{n}" val="0" writable="true"/><obj name="h{n}" href="h{n}" is="obix:History">'
                       f'<ref name="source" href="p{n}"/>{kept}</obj>' for n in range(points))
    alarmed = "".join(f'<int name="{it}" href="{it}" val="7" writable="true"/>' for it in "mq")
    rules = "".join(f'<obj><ref name="source" href="{it}"/><int name="low" val="0"/><int name="high" val="100"/>'
                    f'<bool name="needsAck" val="{needs}"/></obj>' for it, needs in (("m", "true"), ("q", "false")))
    subject = f'<obj name="alarms" href="alarms" is="obix:AlarmSubject"><list name="rules">{rules}</list></obj>'
    return f'<obj xmlns="http://obix.org/ns/schema/1.0" href="http://{host}/obix/" is="obix:Lobby">{numbered}{alarmed}{subject}</obj>'


def certificates(folder, *names):
    """An authority of our own, ca.pem, and for each name a certificate for 127.0.0.1 with its key, NAME.pem and NAME.key, by openssl."""
    if not shutil.which("openssl"):
        raise Missing("openssl")
    new = ("-newkey", "rsa:2048", "-nodes")
    run = lambda *words: subprocess.run(["openssl", *words], cwd=folder, check=True, capture_output=True)
    run("req", "-x509", *new, "-days", "2", "-subj", "/CN=try", "-keyout", "ca.key", "-out", "ca.pem")
    (folder / "names").write_text("subjectAltName=IP:127.0.0.1\n")
    for name in names:
        run("req", *new, "-subj", f"/CN={name}", "-keyout", f"{name}.key", "-out", f"{name}.csr")
        run("x509", "-req", "-days", "2", "-in", f"{name}.csr", "-CA", "ca.pem", "-CAkey", "ca.key", "-CAcreateserial", "-extfile", "names", "-out", f"{name}.pem")


class Room:
    """A folder, ports, and the programs that run; the folder stays where something was otherwise than it has to be."""

    def __init__(self, name, program, first):
        self.program, self.next, self.processes, self.failed, self.chance = program, first, [], [], random.Random(7)
        self.folder = pathlib.Path(tempfile.mkdtemp(prefix=f"obix-{name}."))

    def free_port(self):
        while True:
            try:
                with socket.socket() as free:
                    free.bind(("127.0.0.1", self.next))
                    return free.getsockname()[1]
            except OSError:
                pass                                       # somebody has it
            finally:
                self.next += bool(self.next)

    def server(self, name, text, command="keep", workers=16):
        return Server(self, name, text, command, workers).start()

    def tool(self, name, *words):
        """A tool of tools/, by the Python that runs this."""
        return Process(self, name, [sys.executable, TOP / "tools" / words[0], *words[1:]]).start()

    def judge(self, holds, text, more=""):
        print("ok    " if holds else "not ok", text, "" if holds else more, flush=True)
        if not holds:
            self.failed.append(text)
        return holds

    def kills(self, seconds, between, away, then=lambda name: None, **processes):
        """Kills one of the processes by chance, and starts it again, until the time is over: `between` and `away` are the shortest and
        the longest pause between two kills and before the start. How often each was killed."""
        end, count = time.monotonic() + seconds, collections.Counter()
        while time.monotonic() < end:
            time.sleep(self.chance.uniform(*between))
            name = self.chance.choice(sorted(processes))
            processes[name].kill()
            time.sleep(self.chance.uniform(*away))
            processes[name].start()
            count[name] += 1
            then(name)
        return dict(count)

    def end(self):
        for it in self.processes:
            it.kill()
        if not self.failed:
            shutil.rmtree(self.folder)


def main(name, tries):
    """Does the tries that the line names, or all, each with the room. 1 where something was otherwise than it has to be, 77 where a
    try was left out, as a package isn't installed, else 0."""
    asked = argparse.ArgumentParser(prog=f"bench/{name}.sh")
    asked.add_argument("tries", nargs="*", metavar="TRY", help=f"some of {', '.join(tries)}; all, if none is named")
    asked.add_argument("--obix", type=pathlib.Path, default=TOP / "out/bin/obix", metavar="PROGRAM", help="out/bin/obix")
    asked.add_argument("--from", dest="first", type=int, default=0, metavar="PORT", help="take ports from this one on; else free ones")
    given = asked.parse_args()
    if not set(given.tries) <= set(tries):
        asked.error(f"the tries are {', '.join(tries)}")
    room = Room(name, given.obix.resolve(), given.first)
    signal.signal(signal.SIGTERM, lambda *_: sys.exit(1))  # the programs are ended then too
    missing = 0
    try:
        for it in given.tries or tries:
            try:
                tries[it](room)
            except Missing as package:
                missing = 77
                print(f"{name}.sh: no {package} here (apt-get install {package}): {it} wasn't tried", file=sys.stderr)
    except BaseException:
        room.failed.append("ended before its end")
        raise
    finally:
        room.end()
    print(f"{name}: {f'{len(room.failed)} otherwise, see {room.folder}' if room.failed else 'as it has to be'}")
    return 1 if room.failed else missing
