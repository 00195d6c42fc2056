#!/usr/bin/env python3
"""Tells somebody of alarms: of each that is raised, is over or is acknowledged, over restarts of the server and of this tool.

    tools/notify.py http://127.0.0.1:8080/obix/ --state told --command 'logger "$ALARM_SUBJECT"'
    tools/notify.py http://127.0.0.1:8080/obix/ --state told --webhook http://127.0.0.1:9000/alarm
    tools/notify.py http://127.0.0.1:8080/obix/ --state told --smtp mail.example:587 --starttls --user plant --password-file secret \\
        --from plant@mail.example --to ann@mail.example

An event has the name RUN/NUMBER/WHAT/AT: the server's boot time, the alarm's number, raised, normal or acked, and its moment. It is
noted in the file --state, on the disk, once the way has taken it (the command's status 0; 2xx; the mail accepted), and is tried again
until then. Only a kill of this tool between the two, or an answer of the way that is lost, tells it once more, under the same name.
For several ways start it several times, each with a file of its own.

The command finds in its environment ALARM_ID (the name), ALARM_WHAT, ALARM_AT, ALARM_SOURCE (the point's path), ALARM_NAME,
ALARM_VALUE and ALARM_UNIT (as it was raised), ALARM_WHO (who acknowledged it), ALARM_STATE, ALARM_LINK, and in words ALARM_SUBJECT
and ALARM_TEXT. The webhook gets the same as JSON, with the name as Idempotency-Key; a mail is the words, its Message-ID made of the
name. This tool stands beside the proved program, and isn't proved. It needs ways.py, follow.py and link.py beside it.

status 0: ended by Ctrl-C or SIGTERM, once the event that is being told is noted. 2: the words are no command. 3: a file can't be used,
or another notify has --state.
"""
import argparse
import datetime
import fcntl
import os
import re
import signal
import sys
import threading
import time
import urllib.parse

from follow import Follower, events, is_done, state_of
from link import LOST, Refused, children, kind, moment, val, words
from ways import Untold, Unusable, Ways, address

FIRST, AWAY, FAILED = 0.1, 5, 30             # seconds: of the first pause after a fault, and of the longest for a server and for a way
LONGEST = 200                                # letters of who acknowledged an alarm
HEAD = b"obix-notify 1\n"
WHAT = {"raised": "raised", "normal": "over", "acked": "acknowledged"}
STATES = {"unackedAlarm": "in alarm, not acknowledged yet", "alarm": "in alarm", "unacked": "over, not acknowledged yet",
          "ok": "over, nothing is left to do"}


class Told:
    """The names of the events that were told, a line each, on the disk. A line without an end was never noted."""

    def __init__(self, name, log):
        self.file, self.log, self.waiting, self.trouble = open(name, "a+b", buffering=0), log, b"", None
        fcntl.flock(self.file, fcntl.LOCK_EX | fcntl.LOCK_NB)
        self.file.seek(0)
        text = self.file.read()
        if not text.startswith(HEAD) and not HEAD.startswith(text):
            raise OSError(f"it is no file of this tool: its first line isn't {HEAD.decode().strip()}")
        self.size = text.rfind(b"\n") + 1
        self.names = set(text[len(HEAD):self.size].decode().split())
        self.is_new = not any(name.endswith("/0/begun") for name in self.names)
        if not self.size:
            self.waiting = HEAD

    def note(self, names):
        """Notes names on the disk. Where it is full they wait: meanwhile nothing is told twice, but after a kill."""
        self.names.update(names)
        self.waiting += "".join(f"{it}\n" for it in names).encode()
        try:
            os.ftruncate(self.file.fileno(), self.size)
            if self.file.write(self.waiting) != len(self.waiting):
                raise OSError("there is no room for it")
            os.fsync(self.file.fileno())
            self.size, self.waiting, trouble = self.size + len(self.waiting), b"", None
        except OSError as fault:
            trouble = words(fault)
        if trouble != self.trouble:
            self.log(f"{self.file.name}: {trouble or 'all is noted'}")
        self.trouble = trouble


def clock(text):
    """A moment as people say it, by the clock of this machine."""
    at = moment(text)
    return text if at is None else f"{datetime.datetime.fromtimestamp(at / 1000).astimezone():%Y-%m-%d %H:%M:%S %Z}"


class Alarms(Follower):
    """The events of a server's alarms. Of those that aren't done each is asked again whenever the feed has news."""

    def __init__(self, url, told, ways, given, log):
        super().__init__(url)
        self.told, self.ways, self.past, self.home, self.log = told, ways, given.past, given.link or url, log
        self.known, self.owes, self.went_on, self.is_ending = None, False, False, threading.Event()

    def begin(self):
        self.join()
        if self.subject is None:
            raise Refused("it has no alarm subject")
        if self.run != self.known or not self.is_as_known():
            self.known, self.last, self.mark, self.open = self.run, 0, None, {}
        self.labels = dict(self.labelled(self.lobby, ()))
        self.look()
        if self.watch((), self.open[min(self.open)] if self.open else None):
            self.look()

    def is_as_known(self):
        """Whether the alarm that was looked at last is that one: where a copy of the record was put in its place, it is another or isn't there."""
        found = next(self.alarms([self.last], 0)) if self.last else ()
        return not self.last or bool(found) and val(children(found[0]), "timestamp") == self.mark

    def labelled(self, it, trail):
        """The path of each object, with what people call it and its unit; a ref, as a history's to its source, names another object."""
        if kind(it) != "ref":
            yield it.get("href"), (", ".join(trail), it.get("unit", "").rpartition("/")[2])
        for part in it:
            yield from self.labelled(part, (*trail, part.get("displayName") or part.get("name") or ""))

    def look(self):
        """Tells what is new of the open alarms and of those after the last."""
        self.owes, past = True, []
        for it in (it for page in self.alarms(self.open, self.last) for it in page):
            n = int(it.get("href").rstrip("/").rpartition("/")[2])
            for event in sorted(events(it), key=lambda event: moment(event[2]) or 0):
                name = "/".join((self.run, *map(str, event[:3])))
                if self.told.is_new and not self.past:
                    past.append(name)
                elif name not in self.told.names:
                    self.ways.tell(self.message(name, it, *event))
                    self.told.note([name])
                    self.went_on = True
                if self.is_ending.is_set():
                    return
            self.open[n] = val(children(it), "timestamp")
            if n > self.last:
                self.last, self.mark = n, self.open[n]
            if is_done(it):
                del self.open[n]
        if self.told.is_new:
            self.told.note([*past, f"{self.run}/0/begun"])
            self.log(f"begins; {len(past)} {'event was' if len(past) == 1 else 'events were'} there before, and not told")
        self.told.is_new = self.owes = False

    def message(self, name, alarm, n, what, at, source, value, who):
        """An event as it is told."""
        (label, unit), parts = self.labels.get(source, ("", "")), children(alarm)
        who = who and " ".join(who.split())[:LONGEST]      # what a client said: neither lines of its own, nor more than a way takes
        title, state = self.lobby.get("displayName") or "oBIX", state_of(alarm)
        measured, point = f"{value} {unit}".strip(), f"{label} ({source})" if label else source
        raised, by = clock(val(parts, "timestamp")), f" by {who}" if who else ""
        lines = [f"{title}: an alarm {'was' if what != 'normal' else 'is'} {WHAT[what]}{by}.", "", f"Point:        {point}",
                 f"Value:        {measured} when it was raised", f"Raised:       {raised}"]
        lines += {"raised": [], "normal": [f"Over:         {clock(at)}"], "acked": [f"Acknowledged: {clock(at)}{by}"]}[what]
        acked = ", acknowledged" if state == "alarm" and val(parts, "ackTimestamp") else ""
        lines += [f"State now:    {STATES[state]}{acked}", f"Alarm:        {urllib.parse.urljoin(self.url, f'alarm/{n}/')}", f"Server:       {self.home}", "",
                  f"The name of this message is {name}: where it comes twice it is one event.", ""]
        return {"id": name, "what": what, "at": at, "source": source, "name": label, "value": value, "unit": unit, "who": who, "state": state,
                "link": self.home, "subject": f"{title}: {WHAT[what]}: {label or source} {measured}", "text": "\n".join(lines)}

    def hear(self, entries):
        if self.news(entries) or self.owes:
            self.look()

    def run_on(self, every):
        pause, trouble = FIRST, ""
        while not self.is_ending.is_set():
            try:
                self.keep_up(self.begin, self.hear)
                pause, rest, said = FIRST, every, None
            except (*LOST, Refused, KeyError, Untold) as fault:
                if not isinstance(fault, Untold):
                    self.link.close()
                pause = FIRST if self.went_on else min(pause * 2, FAILED if isinstance(fault, Untold) else AWAY)
                rest, said = pause, str(fault) if isinstance(fault, Untold) else f"server: {words(fault)}"
            if said != trouble:
                self.log(said or "all is told")
            if self.told.waiting:
                self.told.note([])
            trouble, self.went_on = said, False
            self.is_ending.wait(rest)
        self.end()


def line():
    asked = argparse.ArgumentParser(description=__doc__, formatter_class=argparse.RawDescriptionHelpFormatter)
    asked.add_argument("url", help="the lobby, as http://127.0.0.1:8080/obix/")
    asked.add_argument("--state", required=True, metavar="FILE", help="what was told already; it is made where it isn't there")
    way = asked.add_mutually_exclusive_group(required=True)
    way.add_argument("--command", help="a command of the shell")
    way.add_argument("--webhook", metavar="URL", help="an address that takes JSON by POST")
    way.add_argument("--smtp", metavar="HOST[:PORT]", help="a mail server; port 25 if it isn't given")
    asked.add_argument("--starttls", action="store_true", help="TLS with the mail server, whose certificate this machine trusts")
    asked.add_argument("--ca", metavar="FILE", help="or is signed by the one in FILE")
    asked.add_argument("--user", metavar="NAME", help="of the mail server; only with --starttls")
    asked.add_argument("--password-file", metavar="FILE", help="a file with the user's password")
    asked.add_argument("--from", dest="sender", default="obix@localhost", metavar="ADDRESS", help="whose mails they are (%(default)s)")
    asked.add_argument("--to", action="append", default=[], metavar="ADDRESS", help="who gets them; once for each")
    asked.add_argument("--link", metavar="URL", help="the address that people are given, as of the dashboard; else that of the lobby")
    asked.add_argument("--past", action="store_true", help="with a new FILE also tell of the alarms that are there already")
    asked.add_argument("--every", type=float, default=1.0, metavar="SECONDS", help="between two polls (%(default)s)")
    asked.add_argument("--timeout", type=float, default=30, metavar="SECONDS", help="how long a way is waited for (%(default)s)")
    given = asked.parse_args()
    if not re.match("https?://[^/]", given.url) or given.every <= 0 or given.timeout <= 0 or given.webhook and not re.match("https?://[^/]", given.webhook):
        asked.error("wanted are http URLs, and seconds above 0")
    if given.smtp and not (given.to and address(given.smtp, 25)) or bool(given.user) != bool(given.password_file) or (given.user or given.ca) and not given.starttls:
        asked.error("wanted are --smtp HOST or HOST:PORT with --to, --user with --password-file, both and --ca with --starttls")
    return given


def main():
    given = line()
    log = lambda text: print(time.strftime("%Y-%m-%dT%H:%M:%S"), text, flush=True)
    try:
        alarms = Alarms(given.url, Told(given.state, log), Ways(given, log), given, log)
    except (OSError, ValueError, Unusable) as fault:
        why = "another notify has it" if isinstance(fault, BlockingIOError) else words(fault)
        print(f"notify: {'' if isinstance(fault, Unusable) else given.state + ': '}{why}", file=sys.stderr)
        return 3
    for number in (signal.SIGTERM, signal.SIGINT):
        signal.signal(number, lambda *_: alarms.is_ending.set())
    alarms.run_on(given.every)
    return 0


if __name__ == "__main__":
    sys.exit(main())
