"""A record as `obix keep` leaves it: docs/PROFILE.md, "Records of runs" and "A site that is kept". move_record.py stands on it.

It stands beside the proved program, and isn't proved. The standard library alone, and lint/ beside it.
"""
import datetime
import fcntl
import mmap
import re
import typing

from lint.asking import Trouble
from lint.records import written

HEAD = re.compile(rb"(\d{1,18}) (GET|PUT|POST) (\d{1,10}) (\d{1,10}) (\d{1,10})\n")
GATE = 10   # the line feed before an entry that counts
EPOCH = datetime.datetime(1970, 1, 1)


def text_of(ms):
    """A moment as the server writes it."""
    return written(ms).decode()


def index_of(text, first):
    """How many milliseconds a moment in UTC is after `first`."""
    second, _, digits = text.decode().rstrip("Z").partition(".")
    since = datetime.datetime.fromisoformat(second) - EPOCH
    return (since.days * 86400 + since.seconds) * 1000 + int((digits + "000")[:3]) - first


class Entry(typing.NamedTuple):
    ms: int
    verb: bytes
    target: bytes
    body: bytes
    reply: bytes

    @property
    def posts_list(self):
        """Whether it is a batch, of which no reply is kept."""
        return self.verb == b"POST" and self.body.startswith(b"<list")

    @property
    def counts_watches(self):
        """Whether it stands for numbers of watches, and for no request."""
        return self.verb == b"GET"

    def written(self, ms, target, body, reply):
        """The text of this entry with another target, body and reply."""
        return b"%d %s %d %d %d\n%s%s%s\n" % (ms, self.verb, len(target), len(body), len(reply), target, body, reply)


def block(data, at):
    """The first line of the entry that stands at a place, where its body begins and ends, and where it ends; None where none stands."""
    found = HEAD.match(data, at)
    if not found:
        return None
    body = found.end() + int(found[3])
    reply = body + int(found[4])
    end = reply + int(found[5])
    return (found, body, reply, end) if end <= len(data) else None


class Record:
    """A record of `obix keep`, locked against one that would go on with it."""

    def __init__(self, name):
        self.name, self.file = name, open(name, "rb")
        try:
            fcntl.flock(self.file, fcntl.LOCK_SH | fcntl.LOCK_NB)
        except BlockingIOError:
            raise Trouble(f"{name}: a server has it: stop it first") from None
        size = self.file.seek(0, 2)
        self.data = mmap.mmap(self.file.fileno(), 0, access=mmap.ACCESS_READ) if size else b""
        self.is_new = size <= 14
        found = re.match(rb"obix-record 1\nboot (\d{1,15})\n", self.data)
        if not self.is_new and not found:
            self.refuse(0)
        self.boot, self.begin = (int(found[1]), found.end()) if found else (0, 0)

    def refuse(self, at):
        raise Trouble(f"{self.name}: damaged, or no record, from byte {at} on: docs/RUNNING.md, \"Backups, and damage\"")

    def __iter__(self):
        data, at, is_over, size = self.data, self.begin, self.is_new, len(self.data)
        while not is_over:
            found, body, reply, end = block(data, at) or self.refuse(at)
            entry = Entry(int(found[1]), found[2], data[found.end():body], data[body:reply], data[reply:end])
            if entry.verb == b"GET" and (entry.target or entry.body):
                raise Trouble(f"{self.name}: it has a read, so it is a record of obix record, and not of obix keep")
            yield entry
            at = end + 1
            is_over = (at >= size or data[end] != GATE) and self.ends(end)

    def ends(self, at):
        """Whether the entries end at a place: what a stop may leave stands there."""
        gate = self.data[at:at + 1]
        following = block(self.data, at + 1) if gate not in (b"", b"\0", b"\n") else None
        if following and self.data[following[3]:] not in (b"", b"\0"):
            self.refuse(at)
        return True
