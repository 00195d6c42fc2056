#!/usr/bin/env python3
"""The points of an oBIX server, its alarms, and how full and how well it is, as metrics for Prometheus.

    tools/exporter.py http://127.0.0.1:8080/obix/ [--listen 127.0.0.1:9180] [--record /var/lib/obix/record]

A watch follows all points and alarms; each scrape of /metrics polls it, over a connection of its own that is closed after
it, so that no worker of the server is held between scrapes. After a restart of the server, or where the watch has lapsed,
the next scrape begins anew. Without a server obix_up is 0, and there are no points. This tool stands beside the proved
program, and isn't proved. It needs link.py, follow.py and metrics.py beside it.

status 0: ended by Ctrl-C or SIGTERM, the watch deleted. 1: the address can't be listened on. 2: the words are no command.
"""
import argparse
import os
import re
import signal
import socket
import sys
import threading
import time
from http.server import BaseHTTPRequestHandler, ThreadingHTTPServer

from follow import Follower, events, is_done, state_of
from link import LOST, VALUES, Refused, children, kind, moment, val, words
from metrics import Metrics, add_point

ABOUT = (("name", "serverName"), ("vendor", "vendorName"), ("product", "productName"), ("version", "productVersion"), ("tz", "tz"))
STATES = ("unackedAlarm", "alarm", "unacked")
ENTRIES, RECORD = 1_000_000, 1_073_741_824                 # the limits of docs/PROFILE.md: a server doesn't say them


def filled(history):
    """For how many stored entries a history counts: its capacity, or else its records."""
    return max(int(val(history, name) or 0) for name in ("capacity", "count"))


class Site:
    """What is held of the server between scrapes."""

    def __init__(self, url, timeout, lease, record):
        self.server, self.record, self.lock = Follower(url, timeout, lease), record, threading.Lock()
        self.troubles, self.made, self.failed = {}, 0, 0

    def find(self, element):
        """The hrefs of the points of the lobby; contracts are no objects of the plant."""
        for it in element:
            if it.get("name") != "contracts":
                if kind(it) in VALUES and it.get("href"):
                    self.points[it.get("href")] = None
                self.find(it)

    def begin(self):
        """Reads the lobby and the alarms, and makes the watches of all that is followed."""
        self.points, self.open, self.last, self.closed, self.is_due = {}, {}, 0, 0, True
        self.server.join()
        self.find(self.server.lobby)
        self.filled = {path: filled(parts) for path, parts in self.server.histories.items()}
        self.look()
        entries = self.server.watched([*self.points, *self.filled], self.open[min(self.open)][0] if self.open else None)
        self.made += len(self.server.watches)
        self.hear(entries)

    def look(self):
        """Reads the alarms that weren't done, and those after the last one. Of the open ones the time, the state and the events are held."""
        for it in (it for page in self.server.alarms(self.open, self.last) for it in page):
            happened = list(events(it))
            n, _, at, *_ = happened[0]
            self.last, self.open[n] = max(self.last, n), (at, state_of(it), len(happened))
            if is_done(it):
                self.closed += self.open.pop(n)[2]
        self.is_due = False

    def hear(self, entries):
        """Takes in the entries of watches. Alarms with news are read again, also where that failed before."""
        for it in entries:
            path = it.get("href")
            if path in self.points and kind(it) != "err":
                self.points[path] = it
            elif path in self.filled and kind(it) != "err":
                self.filled[path] = filled(children(it))
            elif path == self.server.subject:
                self.is_due = self.is_due or len(it) > 0
        if self.is_due:
            self.look()

    def scrape(self):
        with self.lock:
            began, fault = time.monotonic(), None
            try:
                self.server.keep_up(self.begin, self.hear)
            except (*LOST, Refused, ValueError) as it:
                fault, self.failed = words(it), self.failed + 1
            self.server.link.close()
            self.say("server", fault)
            return self.metrics(fault is None, time.monotonic() - began).text()

    def say(self, what, fault):
        """A line for a trouble that is new, and one for its end."""
        if fault != self.troubles.get(what):
            print(f"exporter: {what}: {fault or 'well again'}", file=sys.stderr, flush=True)
            self.troubles[what] = fault

    def metrics(self, up, took):
        out = Metrics()
        out.add("up", "Whether the server answered this scrape.", int(up))
        out.add("scrape_duration_seconds", "How long the server was asked for this scrape.", round(took, 6))
        out.add("scrape_failures_total", "Scrapes that the server didn't answer.", self.failed, type="counter")
        out.add("watches_made_total", "Watches that were made: at the start, and after each restart or lapse.", self.made, type="counter")
        if self.record:
            self.add_record(out)
        if up:
            self.add_server(out)
            self.add_alarms(out)
            self.add_points(out)
        return out

    def add_record(self, out):
        out.add("record_limit_bytes", "How many bytes RECORD may have; writes are refused then.", RECORD)
        try:
            out.add("record_bytes", "The bytes of the file RECORD of `obix keep`.", os.stat(self.record).st_size)
            self.say(self.record, None)
        except OSError as fault:
            self.say(self.record, words(fault))

    def add_server(self, out):
        server = self.server
        out.add("server_info", "What the server says of itself.", 1, {name: val(server.about, part) or "" for name, part in ABOUT})
        if moment(server.run) is not None:
            out.add("server_start_time_seconds", "When the server began, in seconds from 1970.", moment(server.run) / 1000)
        if server.ahead is not None:
            out.add("clock_ahead_seconds", "By how much the server's time is ahead of this machine's clock.", round(server.ahead, 3))
        for path, entries in self.filled.items():
            out.add("history_entries", "What a history counts for: its capacity, or else its records.", entries, {"path": path})
        happened = self.closed + sum(count for _, _, count in self.open.values())
        out.add("alarm_entries", "Events of alarms: raised, ended, acknowledged.", happened)
        out.add("stored_entries", "Entries of all histories and alarms together.", happened + sum(self.filled.values()))
        out.add("stored_entries_limit", "How many there may be; writes that would add one are refused then.", ENTRIES)

    def add_alarms(self, out):
        subject, states = {"path": self.server.board}, [state for _, state, _ in self.open.values()]
        for state in STATES if self.server.subject else ():
            out.add("alarms", "Alarms that aren't done with, by their state.", states.count(state), {**subject, "state": state})
        if self.server.subject:
            out.add("alarms_raised_total", "Alarms that were raised since the server began.", self.last, subject, "counter")

    def add_points(self, out):
        shown = {path: it for path, it in self.points.items() if it is not None}
        out.add("points", "Points that the watch follows.", len(shown))
        for path, it in shown.items():
            try:
                add_point(out, path, it)
            except (ValueError, ArithmeticError):
                pass   # a value in a spelling of another server

    def end(self):
        """Deletes the watch, if the server is there and the watch is still ours."""
        with self.lock:
            self.server.end()


def serve(site, host, port):
    class Scrapes(BaseHTTPRequestHandler):
        timeout = 30                                       # seconds for which a silent reader is waited for

        def do_GET(self):
            known = self.path.partition("?")[0] == "/metrics"
            body = site.scrape().encode() if known else b"The metrics are at /metrics.\n"
            self.send_response(200 if known else 404)
            self.send_header("Content-Type", "text/plain; version=0.0.4; charset=utf-8")
            self.send_header("Content-Length", str(len(body)))
            self.end_headers()
            self.wfile.write(body)

        def log_message(self, *_):
            pass

    class Server(ThreadingHTTPServer):
        address_family = socket.AF_INET6 if ":" in host else socket.AF_INET

        def handle_error(self, *_):
            fault = sys.exc_info()[1]
            if not isinstance(fault, ConnectionError):   # a reader that went away
                print(f"exporter: {type(fault).__name__}: {fault}", file=sys.stderr, flush=True)

    return Server((host, port), Scrapes)


def main():
    asked = argparse.ArgumentParser(description=__doc__, formatter_class=argparse.RawDescriptionHelpFormatter)
    asked.add_argument("url", help="the lobby, as http://127.0.0.1:8080/obix/")
    asked.add_argument("--listen", default="127.0.0.1:9180", metavar="HOST:PORT", help="where /metrics is served (%(default)s)")
    asked.add_argument("--record", metavar="FILE", help="the RECORD of `obix keep`, on this machine: its bytes are a metric then")
    asked.add_argument("--timeout", type=float, default=5, metavar="SECONDS", help="how long the server is waited for (%(default)s)")
    asked.add_argument("--lease", type=int, default=300, metavar="SECONDS", help="how long the watch lives between scrapes (%(default)s)")
    given = asked.parse_args()
    host, _, port = given.listen.rpartition(":")
    fits = port.isdecimal() and int(port) < 65536 and 1 <= given.lease <= 86400 and given.timeout > 0
    if not fits or not re.match("https?://[^/]", given.url):
        asked.error("wanted are an http URL, HOST:PORT, a lease from 1 to 86400, and a timeout above 0")
    site = Site(given.url, given.timeout, given.lease, given.record)
    try:
        server = serve(site, host.strip("[]") or "127.0.0.1", int(port))
    except OSError as fault:
        print(f"exporter: {given.listen}: {fault.strerror or fault}", file=sys.stderr)
        return 1
    signal.signal(signal.SIGTERM, lambda *_: sys.exit(0))
    signal.signal(signal.SIGINT, lambda *_: sys.exit(0))
    print(f"exporter: http://{given.listen}/metrics", file=sys.stderr, flush=True)
    try:
        server.serve_forever()
    finally:
        site.end()


if __name__ == "__main__":
    sys.exit(main())
