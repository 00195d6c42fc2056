#!/usr/bin/env python3
"""Makes a record for a changed site file: what `obix keep` goes on from, with the values, histories and alarms of the old one.

    tools/move_record.py SITE RECORD NEWSITE NEWRECORD [--moved OLD NEW].. [--obix PROGRAM]

Stop the server first. The requests of RECORD are done again on NEWSITE, each at its own moment; one that NEWSITE refuses is left
out. With --moved what was written to OLD, or to what is below it, is written to NEW; both are paths, /obix/boiler or boiler. What
isn't in NEWRECORD is said by path, a line each. RECORD isn't changed, and NEWRECORD must not be there; it is there only when the
program has opened it. This tool stands beside the proved program, and isn't proved. It needs moving.py, record_file.py and lint/.

status 0: NEWRECORD opens, and has all of RECORD. 3: it opens, and the lines say what it doesn't have. 1: there is no NEWRECORD:
RECORD isn't of SITE, is damaged or in use, NEWSITE opens no site, or the program couldn't be asked. 2: the words are no command.
"""
import argparse
import os
import re
import signal
import sys
import tempfile
import xml.etree.ElementTree as ET

from lint.asking import Program, Trouble
from moving import Left, Run, Site, alarm_lines, check, renumbered, several
from record_file import Record, index_of, text_of

TIMES = re.compile(rb'(<abstime name="(?:timestamp|normalTimestamp|ackTimestamp)" val=")([^"]*)"')
NO_ALARM = "its alarm isn't raised"
FIRST, BODY = 253_402_300_799_999 - 50_000_000, 1_048_576   # when entry 0 is done again: later than any other; bytes of a body


class Mover:
    """Carries the entries of a record from one site file to another."""

    def __init__(self, program, old, record, new, moved):
        self.program, self.old, self.record, self.new = program, old, record, new
        pairs = [(old.path(one).rstrip("/"), new.path(other).rstrip("/")) for one, other in moved]
        self.moves = sorted(pairs, key=lambda it: -len(it[0])) + [(old.root.rstrip("/"), new.root.rstrip("/"))]
        self.is_plain, self.used = not pairs and old.root == new.root, set()
        self.moments, self.errs, self.acked = [], {}, set()   # of the entries; refused items of batches; acknowledged alarms

    def moved(self, path):
        for one, other in self.moves:
            if path == one or path.startswith(one + "/"):
                self.used.add(one)
                return other + path[len(one):]
        return path

    def timed(self, reply, moments):
        """A reply with the moments of the entries in place of those at which they were done again."""
        return TIMES.sub(lambda it: it[1] + text_of(moments[index_of(it[2], FIRST)]).encode() + b'"', reply)

    # ---- on the old site

    def do_before(self):
        """Does all entries again on the old site, and compares the replies."""
        requests = ((entry.verb, entry.target, entry.body, entry) for entry in self.record)
        with Run(self.program, self.old.name, FIRST, requests) as run:
            for number, (_, entry, body, reply) in enumerate(run):
                self.moments.append(entry.ms)
                if body != entry.body:
                    raise Trouble(f"{self.record.name}: damaged: the body of its entry {number} isn't one that a record has")
                if entry.posts_list:
                    self.look_into(number, entry, reply)
                elif entry.reply != reply and not entry.counts_watches:
                    self.compare(number, entry, reply)
            self.old.look(run, FIRST)

    def look_into(self, number, entry, reply):
        """Notes of a batch which items were refused, and which alarms it acknowledges."""
        if b"<err" in reply:
            self.errs[number] = {at for at, it in enumerate(ET.fromstring(reply)) if it.tag == "err"}
        if b"/ack" in entry.body:
            numbers = (self.old.acknowledges(self.old.path(it.get("val", ""))) for it in ET.fromstring(entry.body))
            self.acked |= {it for it in numbers if it is not None}

    def compare(self, number, entry, reply):
        alarm = self.old.acknowledges(self.old.path(entry.target))
        if alarm is None or entry.reply != self.timed(reply, self.moments):
            raise Trouble(f"{self.record.name} is no record of {self.old.name}: its entry {number}, a {entry.verb.decode()} of"
                          f" {entry.target.decode()} at {text_of(entry.ms)}, gets another reply there")
        self.acked.add(alarm)

    # ---- on the new site

    def place(self, target, numbers):
        """Where a request for a target goes on the new site; None where the alarm that it acknowledges isn't raised there."""
        there = path = self.old.path(target)
        alarm = self.old.acknowledges(path) if path.endswith("/ack") else None
        if alarm is not None and numbers.get(alarm) is None:
            return None
        path = path if alarm is None else f"{self.old.root}alarm/{numbers[alarm]}/ack"
        moved = path if self.is_plain else self.moved(path)
        return moved.encode() if moved != there else target

    def batch(self, entry, numbers):
        """The body of a batch, and which of its items it has."""
        items = list(enumerate(ET.fromstring(entry.body)))
        if self.is_plain and b"/ack" not in entry.body:
            return entry.body, [at for at, _ in items]
        kept = []
        for at, it in items:
            target = self.place(it.get("val", ""), numbers)
            if target is not None:
                it.set("val", target if isinstance(target, str) else target.decode())
                kept.append((at, it))
        return b"<list>" + b"".join(ET.tostring(it) for _, it in kept) + b"</list>", [at for at, _ in kept]

    def requests(self, numbers):
        """A request for each entry; with it the entry, and which items of a batch it has, or why it can't be done."""
        for entry in self.record:
            target, body, more = None, entry.body, None
            if not entry.counts_watches:
                target, more = self.place(entry.target, numbers), NO_ALARM
            if target is not None and entry.posts_list:
                body, more = self.batch(entry, numbers)
            if len(body) > BODY:
                target, more = None, f"its body has more than {BODY:,} bytes"
            yield (entry.verb, target, body, (entry, more)) if target else (b"GET", None, b"", (entry, more))

    def do_after(self, out, numbers):
        """Does all entries on the new site, and writes its record; how many entries that has."""
        count, self.left = 0, Left()
        with Run(self.program, self.new.name, FIRST, self.requests(numbers)) as run:
            for number, (target, (entry, more), body, reply) in enumerate(run):
                ms = self.moments_after[number]
                if entry.counts_watches:
                    text = entry.written(ms, entry.target, entry.body, entry.reply)
                elif target is None or reply.startswith(b"<err"):
                    self.leave(entry.target, ms, more if target is None else ET.fromstring(reply).get("display", "an err"))
                    continue
                elif entry.posts_list:
                    if not self.judge_batch(number, entry, more, reply):
                        continue
                    text = entry.written(ms, target, body, b"<obj/>")
                else:
                    is_ack = target.endswith(b"/ack") and self.old.acknowledges(self.old.path(entry.target)) is not None
                    text = entry.written(ms, target, body, self.timed(reply, self.moments_after) if is_ack else reply)
                out.write(text if count else b"obix-record 1\nboot %d\n" % self.record.boot + text)
                count += 1
            self.new.look(run, FIRST)
        return count

    def judge_batch(self, number, entry, kept, reply):
        """Notes what of a batch is refused and wasn't before; whether any of it is done."""
        told, before = dict(zip(kept, ET.fromstring(reply))), self.errs.get(number, ())
        for at, it in enumerate(ET.fromstring(entry.body)) if b"<err" in reply or b"/ack" in entry.body else ():
            is_refused = at not in told or told[at].tag == "err"
            if is_refused and at not in before and "obix:Read" not in it.get("is", ""):
                self.leave(it.get("val", ""), self.moments_after[number], told[at].get("display", "an err") if at in told else NO_ALARM)
        return any(it.tag != "err" for it in told.values())

    def leave(self, target, ms, cause):
        path = re.sub("/writePoint$", "", self.old.path(target))
        alarm, what = self.old.acknowledges(path), "write"
        if alarm is not None:
            path, what = self.old.alarms.get(alarm, (path,))[0], "acknowledgement"
        self.left.add(path, what, cause, ms)

    def numbers(self):
        """The number that each acknowledged alarm has on the new site."""
        old = {number: (self.moved(source), entry) for number, (source, entry) in self.old.alarms.items()}
        found = renumbered(old, self.new.alarms)
        return {number: found.get(number) for number in self.acked}

    def carry(self, file):
        """Writes the record for the new site; how many entries it has."""
        self.do_before()
        with Run(self.program, self.new.name, self.record.boot, ()) as run:
            opened = re.search(rb'name="serverTime" val="([^"]*)"', run.ask("GET", self.new.root + "about"))
        opening = index_of(opened[1], 0) if opened else 0
        self.moments_after = [max(ms, opening) for ms in self.moments]
        numbers = {number: number for number in self.acked}
        count = self.do_after(file, numbers)
        if self.numbers() != numbers:                      # alarms have other numbers where others are raised
            file.seek(0)
            file.truncate()
            count = self.do_after(file, self.numbers())
        if count:
            file.seek(-1, os.SEEK_END)
        file.write(b"\0" if count else b"obix-record 1\0")
        file.flush()
        os.fsync(file.fileno())
        return count

    # ---- what is said

    def told(self):
        """Lines of what the new record doesn't have, and of what it has more: (whether something is left out, line)."""
        yield from ((True, line) for line in self.left.lines())
        sources = {source: count for count, source in self.new.histories.values()}
        for path, (count, source) in self.old.histories.items():
            now = self.new.histories.get(self.moved(path), (sources.get(self.moved(source or ""), 0),))[0]
            if now < count:
                yield True, f"{path}: {several(count, 'record')} before, {now} now"
        old = ((self.moved(source), entry) for source, entry in self.old.alarms.values())
        yield from alarm_lines(old, self.new.alarms.values(), self.moments_after)


def move(given):
    program, old, new = Program(given.obix).path, Site(given.site), Site(given.newsite)
    if os.path.lexists(given.newrecord):
        raise Trouble(f"{given.newrecord}: there is such a file")
    mover = Mover(program, old, Record(given.record), new, given.moved)
    with tempfile.NamedTemporaryFile(dir=os.path.dirname(given.newrecord) or ".", prefix=".move_record.") as file:
        count = mover.carry(file)
        check(program, new.name, file.name)
        owner = os.stat(given.record)
        os.chmod(file.name, owner.st_mode & 0o777)
        if os.geteuid() == 0:
            os.chown(file.name, owner.st_uid, owner.st_gid)
        os.link(file.name, given.newrecord)                # fails where there is one by now
    lines = list(mover.told())
    for _, line in lines:
        print(line)
    for one, other in given.moved:
        if old.path(one).rstrip("/") not in mover.used:
            print(f"--moved {one} {other}: nothing of the record is of {one}")
    print(f"{given.newrecord}: it opens, with {count:,} of {several(len(mover.moments), 'entry', 'entries')}")
    return 3 if any(is_loss for is_loss, _ in lines) else 0


def main():
    words = argparse.ArgumentParser(description=__doc__, formatter_class=argparse.RawDescriptionHelpFormatter)
    for name, what in (("SITE", "the site file of the record"), ("RECORD", "the record, which stays as it is"),
                       ("NEWSITE", "the changed site file"), ("NEWRECORD", "the record that is made")):
        words.add_argument(name.lower(), metavar=name, help=what)
    words.add_argument("--moved", nargs=2, action="append", default=[], metavar=("OLD", "NEW"), help="what was OLD is NEW now")
    words.add_argument("--obix", metavar="PROGRAM", help="the program; else out/bin/obix beside the tools, or obix on the PATH")
    given = words.parse_args()
    signal.signal(signal.SIGTERM, lambda *_: sys.exit(143))
    try:
        return move(given)
    except KeyboardInterrupt:
        return 130
    except OSError as fault:
        print(f"move_record: {fault.filename or given.newrecord}: {fault.strerror}", file=sys.stderr)
    except Trouble as fault:
        print(f"move_record: {fault}", file=sys.stderr)
    return 1


if __name__ == "__main__":
    sys.exit(main())
