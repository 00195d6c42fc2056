"""Runs of site files that do requests again, and what they leave; move_record.py stands on it.

It stands beside the proved program, and isn't proved. The standard library alone, and record_file.py and lint/ beside it.
"""
import collections
import functools
import itertools
import queue
import re
import subprocess
import tempfile
import threading
import urllib.parse
import xml.etree.ElementTree as ET
from xml.sax.saxutils import unescape

from lint.asking import Trouble
from record_file import index_of, text_of

ALARM = re.compile(rb'<obj href="[^"]*/alarm/(\d+)/"[^>]*><ref name="source" href="([^"]*)"/><abstime name="timestamp" val="([^"]*)"/>')

BUNCH = 200   # requests that are written at once


def shown(value):
    """The text of a value in canonical text."""
    return unescape(value.decode(), {"&quot;": '"'})


@functools.lru_cache(100_000)
def located(url, text):
    """The path that a target or an href leads to from the root of a site."""
    return urllib.parse.urlsplit(urllib.parse.urljoin(url, text if isinstance(text, str) else text.decode())).path


class Run:
    """`obix record` of a site file: requests that are done a millisecond apart from a moment on, and what each is answered.

    A request is (verb, target, body, note), the first three in bytes; iterating gives (target, note, body, reply) of each, the body
    as the program has it. In place of one without a target something harmless is asked.
    """

    def __init__(self, program, site, at, requests):
        self.site, self.said, self.asked, self.requests = site, tempfile.TemporaryFile(), queue.SimpleQueue(), requests
        self.process = subprocess.Popen([program, "record", site, "--at", str(at), "--tick", "1"], stdin=subprocess.PIPE,
                                        stdout=subprocess.PIPE, stderr=self.said, bufsize=1 << 18)
        self.feeder = threading.Thread(target=self.feed, daemon=True)

    def __enter__(self):
        self.feeder.start()
        for _ in range(2):                                 # the first two lines of a record
            _ = self.process.stdout.readline() or self.ended()
        return self

    def __exit__(self, *fault):
        self.process.kill()
        self.process.wait()
        self.feeder.join()
        for it in (self.process.stdin, self.process.stdout, self.said):
            try:
                it.close()
            except BrokenPipeError:
                pass

    def write(self, requests):
        text = [b"%s %s HTTP/1.1\r\nContent-Length: %d\r\n\r\n%s" % (verb, target, len(body), body) if target else
                b"GET / HTTP/1.1\r\n\r\n" for verb, target, body, _ in requests]
        self.process.stdin.write(b"".join(text))
        self.process.stdin.flush()

    def feed(self):
        """Writes the requests in bunches, and passes each bunch on to who reads the answers."""
        try:
            requests = iter(self.requests)
            while True:
                bunch = list(itertools.islice(requests, BUNCH))
                self.asked.put(bunch)
                if not bunch:
                    return
                self.write(bunch)
        except BrokenPipeError:
            pass                                           # the program has ended: its own words say why
        except Exception as fault:
            self.asked.put(fault)

    def ended(self):
        status = self.process.wait()
        self.said.seek(0)
        raise Trouble(f"{self.site}: {self.said.read().decode(errors='replace').strip()} (status {status})")

    def answer(self, target):
        """The body and the reply of the next entry, which has this target."""
        line = self.process.stdout.readline() or self.ended()
        _, _, at, body, reply = line.split(b" ")
        if reply == b"-\n":
            raise Trouble(f"{self.site}: the program was out of memory")
        at, end = int(at), int(at) + int(body)
        text = self.process.stdout.read(end + int(reply) + 1)
        if not text.startswith(target) or at != len(target):
            raise Trouble(f"{self.site}: {target.decode()} is refused before the site is asked")
        return text[at:end], text[end:-1]

    def __iter__(self):
        while True:
            bunch = self.asked.get()
            if isinstance(bunch, Exception):
                raise bunch
            if not bunch:
                return
            for _, target, _, note in bunch:
                yield (target, note, *self.answer(target or b"/"))

    def ask(self, verb, target, body=""):
        """The reply to one request more, when all are done."""
        self.feeder.join()
        self.write([(verb.encode(), target.encode(), body.encode(), None)])
        return self.answer(target.encode())[1]


class Site:
    """A site file, and what a run of it leaves."""

    def __init__(self, name):
        self.name, self.histories, self.alarms = name, {}, {}
        try:
            self.url = ET.parse(name).getroot().get("href", "")
        except ET.ParseError as fault:
            raise Trouble(f"{name}: {fault}") from None
        if not re.match("https?://.*/$", self.url):
            raise Trouble(f"{name}: no site file: its root has no href such as http://plant/obix/")
        self.root = self.path("")
        self.ack = re.compile(re.escape(self.root) + r"alarm/(\d+)/ack")

    def path(self, text):
        return located(self.url, text)

    def acknowledges(self, path):
        """The number of the alarm that a request for a path acknowledges."""
        found = self.ack.fullmatch(path)
        return int(found[1]) if found else None

    def look(self, run, first):
        """Notes histories as path: (count, source), and alarms as number: (source, number of the entry), when all entries are done."""
        for it in ET.fromstring(run.ask("GET", self.root)).iter():
            parts = {part.get("name"): part for part in it}
            if not it.get("href") or not {"count", "query", "feed"} <= set(parts):
                continue
            count = int(parts["count"].get("val") or 0)
            if "Alarm" not in parts["feed"].get("of", ""):
                self.histories[it.get("href")] = count, parts["source"].get("href") if "source" in parts else None
                continue
            reply = run.ask("POST", parts["query"].get("href"), '<obj><int name="limit" val="1000000"/></obj>')
            self.alarms = {int(number): (shown(source), index_of(at, first)) for number, source, at in ALARM.findall(reply)}
            if len(self.alarms) != count:
                raise Trouble(f"{self.name}: it has {count} alarms, of which {len(self.alarms)} could be read")


def renumbered(old, new):
    """The numbers of alarms on another site: those of the same source, raised by the same entry. Of one that is raised more often there,
    or less often, nothing is said."""
    groups = collections.defaultdict(lambda: ([], []))
    for at, alarms in enumerate((old, new)):
        for number, key in sorted(alarms.items()):
            groups[key][at].append(number)
    return {number: other for mine, theirs in groups.values() if len(mine) == len(theirs) for number, other in zip(mine, theirs)}


class Left:
    """What isn't carried, by path and cause: how often, and from when to when."""

    def __init__(self):
        self.times = {}

    def add(self, path, what, cause, ms):
        times = self.times.setdefault((path, what, cause), [0, ms, ms])
        times[0], times[2] = times[0] + 1, ms

    def lines(self):
        for (path, what, cause), (count, first, last) in self.times.items():
            yield f"{path}: {several(count, what)} left out: {cause} ({text_of(first)}{f' to {text_of(last)}' if count > 1 else ''})"


def alarm_lines(old, new, moments):
    """Lines of alarms, (source, number of the entry), that are raised on one of two sites alone, by source: (whether it's the old one,
    line)."""
    before, now = collections.Counter(old), collections.Counter(new)
    for is_loss, found in ((True, before - now), (False, now - before)):
        what = "isn't raised any more" if is_loss else "is raised now, and wasn't before"
        for path, count in collections.Counter(path for path, _ in found.elements()).items():
            first = text_of(moments[min(entry for it, entry in found if it == path)])
            yield is_loss, f"{path}: " + (f"{count:,} alarms, the first of {first}: each" if count > 1 else f"an alarm of {first}:") + f" {what}"


def several(count, one, more=None):
    return f"{count:,} {one if count == 1 else more or one + 's'}"


def check(program, site, record):
    """Starts the program with a record, at a port of this machine that the system chooses, and ends it when it serves."""
    with tempfile.TemporaryFile() as said:
        run = subprocess.Popen([program, "keep", site, record, "127.0.0.1", "0"], stdout=subprocess.PIPE, stderr=said)
        try:
            line = run.stdout.readline()
        finally:
            run.kill()
            run.wait()
            run.stdout.close()
        said.seek(0)
        if not line.startswith(b"listening"):
            raise Trouble(f"the new record doesn't open: {said.read().decode(errors='replace').strip()}")
