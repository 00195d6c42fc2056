#!/usr/bin/env python3
"""The histories and alarms of oBIX servers, followed into PostgreSQL: each record and each alarm event once, in order.

    tools/historian.py http://127.0.0.1:8080/obix/ --to postgresql:///building
    tools/historian.py north=http://10.0.0.1:8080/obix/ south=http://10.0.0.2:8080/obix/ --to "host=db dbname=building"
    tools/historian.py examples/campus.xml --to postgresql:///building       # the servers of a CONFIG of `obix super`

Each server has a thread, a connection that holds one of the server's workers, and a connection to the database. A watch says which
histories have news. What is stored comes from queries that begin at the number of the next record, and is stored in one transaction
with the place that it leads to: a kill of the server, of this tool or of the database at any moment neither loses nor doubles. Where
records are missing, since the history dropped them or the server lost them, a row of the table `gap` says so, and how many. A server
that numbers no records is asked by moments, and its gaps have no counts. A second historian of a server waits until the first ends.
It stands beside the proved program and isn't proved. It needs python3-psycopg, and beside it historian_tables.py, historian.sql,
follow.py and link.py.

statuses: 0 ended by Ctrl-C or SIGTERM, or with --once all is stored; 1 with --once something didn't answer; 2 the words are no
command, CONFIG can't be read, or python3-psycopg isn't installed
"""
import argparse
import functools
import re
import signal
import sys
import threading
import time
import xml.etree.ElementTree as ET
from xml.sax.saxutils import quoteattr

from follow import Follower, is_done
from historian_tables import ANEW, BACK, PAGE, TABLES, History, Page, Tables, database, instant, psycopg
from link import LOST, VALUES, Refused, children, kind, needed, val, words

TOGETHER = 20                                # histories of a batch
SECONDS, SWEEP = 30, 60                      # how long an answer is waited for; between looks at all histories
LONGEST, ENDING = 10, 5                      # the longest pause after a fault; for an end, in seconds


class Server(Follower):
    def __init__(self, url, name, tables, given, stop):
        super().__init__(url, SECONDS)
        self.name, self.dial, self.given, self.stop, self.tables, self.failed = name, tables, given, stop, None, False

    def log(self, text):
        print(time.strftime("%Y-%m-%dT%H:%M:%S"), self.url, text, flush=True)

    def missing(self, path, since, until, why, lost=None):
        until = max(since, until)                          # by an earlier clock it may be before
        if self.tables.gap(path, since, until, why, lost):
            self.log(f"gap: {path} from {since} to {until}: {why}" + (f", {lost} records lost" if lost is not None else ""))

    def begin(self):
        """Joins the database and the server, and stores what was missed."""
        self.tables, self.stored = self.dial(self.url), [0, 0]
        self.tables.take()
        self.join()
        inside = (it for top in self.lobby if top.get("name") != "contracts" for it in top.iter())
        points = [(it.get("href"), it.get("displayName") or it.get("name"), kind(it), it.get("unit"), it.get("min"), it.get("max"),
                   it.get("writable") == "true") for it in inside if kind(it) in VALUES and it.get("href")]
        with self.tables.transaction():
            self.tables.join(instant(self.run), self.name or self.lobby.get("displayName") or self.url, points)
            self.held = {path: self.history(path, parts) for path, parts in self.histories.items()}
            last = self.tables.last_event() if self.tables.is_new and self.subject else None
            if last:
                self.missing(self.board, last, self.tables.boot, ANEW)
        self.look_back()
        self.events()
        self.records(self.held)
        self.swept = time.monotonic()

    def history(self, path, parts):
        """A history at its place. In a new run that is where the runs before end: what a server has of the time before its boot came
        with its site file, and is stored already. By an earlier clock the new run begins at its boot."""
        id, place, last = self.tables.history(path, parts["source"].get("href") if "source" in parts else None)
        if place is None:
            boot = self.tables.boot
            place = self.tables.new_place(id, *((None, 0) if last is None else last if last[0] <= boot else (boot, 0)))
            if last:
                self.missing(path, last[0], boot, ANEW)
        return History(path, needed(parts.values(), "query").get("href"), id, *place)

    def look_back(self):
        """Where a copy of the server's record was put back, numbers of alarms come again: forgets those that are others by now."""
        last = n = high = self.tables.waiting()[0] if self.subject else 0
        low = 0
        while low < high:
            found, was = next(self.alarms([n], 0)), self.tables.raised(n)
            is_same = was is None or found and instant(needed(found[0], "timestamp").get("val")) == was
            low, high = (n, high) if is_same else (low, n - 1)
            n = (low + high + 1) // 2
        if low < last:
            with self.tables.transaction():
                self.missing(self.board, self.tables.raised(last), instant(self.time), BACK)
                self.tables.forget(low)

    def events(self):
        """Stores the events of alarms that weren't done, and of those after the last."""
        last, wait = self.tables.waiting()
        self.oldest = None
        for found in self.alarms(wait, last):
            self.stored[1] += self.tables.alarms(found)
            self.oldest = self.oldest or next((val(children(it), "timestamp") for it in found if not is_done(it)), None)

    def records(self, paths):
        """Stores what is new of histories, some of them by one batch, until none of them has more."""
        left = [self.held[path] for path in paths]
        while left and not self.stop.is_set():
            now = [it for it in left[:TOGETHER] if it.page() <= 2 * PAGE] or left[:1]
            found = self.asked([it.asked() for it in now] + [f"<uri is='obix:Read' val={quoteattr(it.path)}/>" for it in now])
            more = self.pages(now, found[:len(now)], [children(it) for it in found[len(now):]])
            left = more + [it for it in left if it not in now]

    def pages(self, now, found, shown):
        """Stores a page of each of some histories. Those that have more."""
        for it, answer in zip(now, found):
            if kind(answer) == "err":
                raise Refused(f"{it.path}: {answer.get('display')}")
        pages = [Page(it) for it in found]
        steps = [self.step(*each) for each in zip(now, pages, shown)]
        self.tables.months("record", {row[2] for rows, *_ in steps for row in rows})
        with self.tables.transaction():
            self.tables.hold(now)
            for it, (_, gap, *_) in zip(now, steps):
                if gap:
                    self.missing(it.path, *gap)
            stored = self.tables.records([row for it, (rows, *_) in zip(now, steps) if not it.careful for row in rows],
                                         [row for it, (rows, *_) in zip(now, steps) if it.careful for row in rows],
                                         [(it.id, *place) for it, (*_, place, _) in zip(now, steps)])
        self.stored[0] += stored
        for it, (*_, place, _) in zip(now, steps):
            it.at, it.k, it.careful, it.next = place
            it.is_sure = True
        return [it for it, (*_, has_more) in zip(now, steps) if has_more]

    def step(self, it, page, shown):
        """The rows that a page of a history gives, the gap before them, the place that they lead to, and whether there is more."""
        by_moment = [], None, (it.at, it.k, it.careful, None), True
        if it.next is not None and page.gone is None:      # the server numbers no records any more
            return by_moment
        gap = it.gap(page, shown)
        if gap and gap[2] == BACK:
            oldest = self.tables.oldest(it)
            if oldest:                                     # all that the server has is asked anew, and what is stored already passed over
                return [], (it.at, instant(self.time), BACK), (oldest, 0, max(it.at, it.careful or it.at), None), True
            if it.next is not None:
                return by_moment
            gap = None
        rows, at, k = it.new(page, self.tables.run)
        at = at or self.tables.boot                        # it is empty: what comes is later
        return rows, gap, (at, k, it.careful if it.careful and at <= it.careful else None, it.following(page)), len(page.data) >= it.page()

    def store(self, news):
        news = set(news)
        if self.subject in news:
            self.events()
        self.records([path for path in self.held if path in news])

    def follow(self):
        self.begin()
        self.log(f"{len(self.held)} histories; stored {self.stored[0]} records and {self.stored[1]} alarm events")
        if self.given.once:
            return
        self.store(self.watch(self.held, self.oldest))
        while not self.stop.is_set():
            yield
            link = self.link.link
            news = self.changes()
            if self.link.link is not link:                 # of the same boot time, but it may have another record by now
                raise Refused("the connection was lost")
            if time.monotonic() - self.swept > SWEEP:      # a watch says nothing of a record that changes neither count, start nor end
                self.swept, news = time.monotonic(), [self.subject, *self.held]
                self.tables.answers()
            self.store(news)

    def run_on(self):
        """Follows until the stop. After a fault it begins anew: whatever it is, the other servers go on."""
        pause, trouble = 1, None
        while not self.stop.is_set():
            try:
                for _ in self.follow():
                    pause, trouble = 1, None
                    self.stop.wait(self.given.every)
                break
            except Exception as fault:
                whose = "the database: " if isinstance(fault, psycopg.Error) else f"{type(fault).__name__}: "
                said = ("" if isinstance(fault, (*LOST, Refused)) else whose) + " ".join(words(fault).split())
                if said != trouble:
                    self.log(said if self.given.once else f"{said} (tried again until it goes on)")
                trouble, self.failed = said, True
            self.close()
            if self.given.once:
                return
            self.stop.wait(pause)
            pause = min(pause * 2, LONGEST)
        self.end()
        self.close()

    def close(self):
        self.link.close()
        if self.tables is not None:
            self.tables.close()
            self.tables = None


def servers(given):
    """The name, if one is given, of each server by its URL."""
    found = {}
    for text in given:
        one = re.fullmatch("(?:([^=/]+)=)?(https?://[^/].*)", text)
        pairs = [one.groups()] if one else [(it.get("name"), val(children(it), "url")) for it in ET.parse(text).getroot()]
        if not pairs or None in [url for _, url in pairs]:
            raise ValueError(f"{text} is no CONFIG of `obix super`, which has a url for each server")
        found.update((url if url.endswith("/") else f"{url}/", name) for name, url in pairs)
    return found


def parsed():
    about, _, statuses = __doc__.partition("\nstatuses")
    asked = argparse.ArgumentParser(description=about, epilog="statuses" + statuses, formatter_class=argparse.RawDescriptionHelpFormatter)
    asked.add_argument("servers", nargs="+", metavar="[NAME=]URL|CONFIG", help="lobbies, or a file as `obix super` has it")
    asked.add_argument("--to", required=True, metavar="DATABASE", help="as libpq takes it: a URL, or words such as dbname=building")
    asked.add_argument("--every", type=float, default=1.0, metavar="SECONDS", help="between two polls, 0.05 to 50; if not given 1")
    asked.add_argument("--once", action="store_true", help="store what there is, and end")
    given = asked.parse_args()
    if not 0.05 <= given.every <= 50:                      # a watch lives for 60 seconds
        asked.error("--every is from 0.05 to 50 seconds")
    return given


def main():
    given = parsed()
    if psycopg is None:
        print(f"historian: {sys.executable} has no psycopg (Debian: apt-get install python3-psycopg; it is for /usr/bin/python3)", file=sys.stderr)
        return 2
    try:
        found, to = servers(given.servers), database(given.to)
        TABLES.stat()
    except (OSError, ET.ParseError, ValueError) as fault:
        print(f"historian: {fault}", file=sys.stderr)
        return 2
    stop = threading.Event()
    for it in (signal.SIGTERM, signal.SIGINT):
        signal.signal(it, lambda *_: stop.set())
    all_of = [Server(url, name, functools.partial(Tables, to), given, stop) for url, name in found.items()]
    threads = [threading.Thread(target=it.run_on, daemon=True) for it in all_of]
    for thread in threads:
        thread.start()
    while any(thread.is_alive() for thread in threads) and not stop.wait(0.1):
        pass
    end = time.monotonic() + ENDING                        # a transaction that is cut off is none
    for thread in threads:
        thread.join(max(0, end - time.monotonic()))
    return int(given.once and any(it.failed for it in all_of))


if __name__ == "__main__":
    sys.exit(main())
