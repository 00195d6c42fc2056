"""The client of an oBIX server that all tools use: a connection, the parts of its answers, the records of a history.

It stands beside the proved program and isn't proved. The standard library alone.
"""
import datetime
import http.client
import itertools
import re
import socket
import threading
import time
import urllib.parse
import xml.etree.ElementTree as ET
from xml.sax.saxutils import quoteattr

VALUES = ("bool", "int", "real", "str", "enum", "uri", "abstime", "reltime", "date", "time")
LOST = (OSError, http.client.HTTPException)                # no server is there, or its answer was cut
SECONDS = 10                                               # how long an answer is waited for
PAGE = 10_000                                              # records of a query


class Refused(Exception):
    """The server answered, and these are its words."""


def words(fault):
    """What a person is told of a fault."""
    if isinstance(fault, socket.timeout):
        return "no answer in time; are all of its workers taken?"
    return getattr(fault, "strerror", None) or str(fault) or type(fault).__name__


def kind(it):
    return it.tag.rpartition("}")[2]


def named(it, name):
    return next((part for part in it if part.get("name") == name), None)


def needed(it, name):
    """The child of that name, without which there is no going on."""
    part = named(it, name)
    if part is None:
        raise Refused(f"{it.get('href') or 'its answer'} has no {name}: this is no lobby of an oBIX server")
    return part


def children(it):
    return {part.get("name"): part for part in it}


def val(parts, name):
    """The value of a child; None where there is none."""
    return parts[name].get("val") if name in parts else None


def moment(text):
    """The milliseconds since 1970 of an abstime; None for anything else."""
    found = re.fullmatch(r"(\d{4}-\d\d-\d\dT\d\d:\d\d:\d\d)(\.\d+)?(Z|[+-]\d\d:\d\d)", text or "")
    try:                                                   # before 3.11 Python reads few spellings of a fraction, and no Z
        whole = datetime.datetime.fromisoformat(found[1] + found[3].replace("Z", "+00:00")).timestamp() * 1000
        return whole + int(float(found[2] or 0) * 1000 + 1e-6)
    except (TypeError, ValueError, OverflowError):
        return None


class Link:
    """One connection to a server, dialled when it is needed. Each request waits for its reply, whichever thread asks."""

    def __init__(self, url, again, seconds=SECONDS):
        self.url, self.parts, self.again, self.seconds = url, urllib.parse.urlsplit(url), again, seconds
        self.turn, self.link, self.middle = threading.Lock(), None, 0.0    # `middle` of the last exchange, in seconds since 1970

    def close(self):
        if self.link is not None:
            self.link.close()
        self.link = None

    def ask(self, verb, href, body=""):
        """The root of the reply. A connection that was kept may be closed by now: with `again` it is dialled anew then."""
        path = urllib.parse.urlsplit(urllib.parse.urljoin(self.url, href)).path or "/"
        with self.turn:
            is_again = self.again and self.link is not None
            try:
                status, text = self.call(verb, path, body)
            except LOST as fault:
                if not is_again or isinstance(fault, socket.timeout):
                    raise
                status, text = self.call(verb, path, body)
        if status != 200:
            raise Refused(f"{status} {text[:200].decode(errors='replace').strip()}")
        try:
            root = ET.fromstring(text)
        except ET.ParseError as fault:
            raise Refused(f"its answer is no document: {fault}") from fault
        if kind(root) == "err":
            raise Refused(root.get("display") or root.get("is") or "an err without words")
        return root

    def call(self, verb, path, body):
        try:
            if self.link is None:
                dial = http.client.HTTPSConnection if self.parts.scheme == "https" else http.client.HTTPConnection
                self.link = dial(self.parts.hostname, self.parts.port, timeout=self.seconds)
                self.link.connect()
            began = time.time()
            self.link.request(verb, path, body.encode() or None, {"Content-Type": "text/xml"} if body else {})
            reply = self.link.getresponse()
            text, self.middle = reply.read(), (began + time.time()) / 2
            self.link = self.link if self.link.sock else None      # the server closes: a new connection may lead to another one
            return reply.status, text
        except BaseException:                              # an interrupt too: what comes next would be the reply to this
            self.close()
            raise


def records(link, query, since="", known=0, until="", page=PAGE, gap=lambda before, after: None):
    """The records of a history from the abstime `since` to `until`, each its abstime and its value, asked in pages; `known` ones of
    the moment `since` are passed over. A query doesn't say whether there are more: a page that isn't full is the last.

    Each page begins at the moment of the last record, and what was read of that moment is passed over. A full history drops its
    oldest record for each new one, so the first ones of these may be gone by then; where all of them are, `gap` is told it."""
    end, last = f"<abstime name='end' val={quoteattr(until)}/>" if until else "", None
    while True:
        start = f"<abstime name='start' val={quoteattr(since)}/>" if since else ""
        limit = page + (known if last is None else len(last))
        data = needed(link.ask("POST", query, f"<obj><int name='limit' val='{limit}'/>{start}{end}</obj>"), "data")
        pairs = [(needed(record, "timestamp").get("val"), needed(record, "value")) for record in data]
        told = [(stamp, value.get("val")) for stamp, value in pairs]
        if last is None:
            first = min(known, sum(stamp == since for stamp, _ in told))
        else:
            first = next(n for n in range(len(last), -1, -1) if told[:n] == last[len(last) - n:])
            if first == 0:
                gap(since, told[0][0] if told else until)
        yield from pairs[first:]
        if len(pairs) < limit:
            return
        since = told[-1][0]
        read = (last or []) + told[first:]
        last = list(itertools.takewhile(lambda it: moment(it[0]) == moment(since), reversed(read)))[::-1]
