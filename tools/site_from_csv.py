#!/usr/bin/env python3
"""Makes a site file of a table of points.

    tools/site_from_csv.py POINTS.csv > SITE.xml

The first line of the table names its columns, in any order; path and kind are needed. tools/README.md says what each takes:
path name kind value unit min max precision writable range history low high ack contract

A fault is a line POINTS.csv:LINE:COLUMN: TEXT on standard error, with the column as a spreadsheet names it, and then no site is
written. What else there is to say of the site file says tools/site_lint.py. This tool stands beside the proved program, and isn't
proved. It needs points_table.py beside it.

status 0: the site file is written. 1: the table has faults. 2: the words are no command, or a file can't be read or written.
"""
import argparse
import re
import signal
import sys
from xml.sax.saxutils import quoteattr

from points_table import COLUMNS, KINDS, NO, Table

ENTRIES, FOR_ALARMS, PARTS = 1_000_000, 100_000, 512   # what a site stores, what of it is left for alarms, the parts of a contract
NAMESPACE = "http://obix.org/ns/schema/1.0"


def name_of(path):
    """The name of the object at a path: its last part, with the letters that the standard allows."""
    name = re.sub("[^A-Za-z0-9_]", "_", path.rpartition("/")[2])
    return f"_{name}" if name[:1].isdigit() else name


def element(kind, *told, inside=""):
    text = f"<{kind}" + "".join(f" {name}={quoteattr(it)}" for facets in told for name, it in facets.items())
    return f"{text}>{inside}</{kind}>" if inside else f"{text}/>"


def source(row):
    return element("ref", {"name": "source", "href": row.path})


def history(row):
    capacity = "" if row.history == "all" else element("int", {"name": "capacity", "val": row.history})
    title = {"displayName": row.text("name")} if row.text("name") else {}
    return element("obj", {"href": f"histories/{row.path}", "is": "obix:History"}, title, inside=source(row) + capacity)


def rule(row):
    limits = "".join(element(row.kind, {"name": name, "val": row.text(name)}) for name in ("low", "high"))
    needs = "false" if row.text("ack") and row.text("ack").lower() in NO else "true"
    return element("obj", inside=source(row) + limits + element("bool", {"name": "needsAck", "val": needs}))


class Site:
    """The tree of the rows, in their order: below each folder its objects, and for each contract the object that it is made of."""

    def __init__(self, rows):
        self.rows, self.at, self.first, self.below, self.ranges = rows, {}, {}, {}, {}
        for row in rows:
            self.at.setdefault(row.path, row)
            for end in (it.start() for it in re.finditer("/|$", row.path)):
                self.below.setdefault(row.path[:end].rpartition("/")[0], {}).setdefault(row.path[:end], row)
            if row.text("range"):
                self.ranges.setdefault(row.text("range"), (f"ranges/{len(self.ranges) + 1}", row.choices))
            if row.text("contract"):
                self.first.setdefault(row.text("contract"), row)

    def bases(self, row):
        """The rows of which it takes what its own cells don't say: that of its own contract, then of those of what is round it."""
        end = len(row.path)
        while end > 0:
            up = self.at.get(row.path[:end])
            first = self.first.get(up.text("contract")) if up is not None else None
            base = self.at.get(first.path + row.path[end:]) if first is not None and first is not up else None
            if base is not None and base is not row:
                yield base
                if up is not row:
                    return
            end = row.path.rfind("/", 0, end)

    def has(self, row, name):
        return next((it.text(name) for it in (row, *self.bases(row)) if it.text(name)), "")

    # ---- faults

    def judge(self):
        """The faults of the rows, each by itself, then beside the others."""
        sound = {id(row) for row in self.rows if row.judge()}
        self.judge_names()
        self.judge_room()
        for row in self.rows:
            if {id(row), *map(id, self.bases(row))} <= sound:
                self.judge_row(row)
        for name, row in self.first.items():
            inside = sum(path.startswith(f"{row.path}/") for paths in self.below.values() for path in paths)
            if inside >= PARTS:
                row.fault("contract", f"contract {name!r} would have {inside + 1} objects, and may have {PARTS}")

    def judge_names(self):
        for row in self.rows:
            if self.at[row.path] is not row:
                row.fault("path", f"path {row.path!r} stands in line {self.at[row.path].line} already")
        for paths in self.below.values():
            names = {}
            for path, row in paths.items():
                other = names.setdefault(name_of(path), path)
                if other != path and path:
                    row.fault("path", f"path {row.path!r}: {path} would have the name {name_of(path)}, as {other} has it")

    def judge_room(self):
        """Where the histories leave no room: a write that would raise an alarm is refused then."""
        kept, has_alarms = 0, any(row.text("low") for row in self.rows)
        room = ENTRIES - (FOR_ALARMS if has_alarms else 0)
        for row in self.rows:
            more = int(row.history) if row.history.isdecimal() else 0
            kept += more
            if kept > room >= kept - more:
                left = f": a site stores {ENTRIES:,} entries, and alarms need {FOR_ALARMS:,} of them" if has_alarms else ""
                row.fault("history", f"with this one the histories keep {kept:,} records together, and may keep {room:,}{left}")

    def judge_row(self, row):
        up = self.at.get(row.path.rpartition("/")[0])
        made = ["writePoint"] if up is not None and up.writable == "point" else []
        made += ["query", "feed"] if up is not None and up.history not in NO and row.history not in NO else []
        if row.path.rpartition("/")[2] in made:
            row.fault("path", f"path {row.path!r}: the server makes an object of this name for {up.path}")
        for base in self.bases(row):
            if base.kind != row.kind and not (base.is_folder and row.is_folder):
                row.fault("kind", f"kind {row.kind!r} isn't {base.kind}, which line {base.line} has: the contract is made of that")
        if row.kind == "enum":
            self.judge_range(row)
        if row.kind in KINDS:
            self.judge_limits(row)

    def judge_range(self, row):
        names = next((dict(it.choices) for it in (row, *self.bases(row)) if it.choices), {})
        value = row.text("value")
        if not names:
            row.fault("range", "range is empty: an enum has the names of its values, with | between them")
        elif value and value not in names:
            row.fault("value", f"value {value!r} isn't in the range: {' '.join(names)}")

    def judge_limits(self, row):
        texts = {name: row.text(name) for name in ("value", "low", "high")}
        texts.update({name: self.has(row, name) for name in ("min", "max")})
        sizes = {name: row.size(name, text) for name, text in texts.items()}
        for low, high in (("min", "max"), ("low", "high"), ("min", "value"), ("value", "max"), ("low", "value"), ("value", "high")):
            if sizes[low] is None or sizes[high] is None or sizes[low] <= sizes[high]:
                continue
            name, said, other = (low, "above", high) if low == "value" else (high, "below", low)
            told = f"the length of value, {sizes['value']}," if row.kind == "str" and name == "value" else f"{name} {texts[name] or 0}"
            is_alarm = name == "value" and other in ("low", "high")
            more = ": no alarm is raised as the site opens (null: no value yet)" if is_alarm else ""
            row.fault(name, f"{told} is {said} {other} {texts[other]}{more}")

    # ---- the site file

    def facets(self, row, is_top=False):
        """What a contract has of a row."""
        unit = row.text("unit")
        told = {
            "displayName": "" if is_top else row.text("name"), "max": row.text("max"), "min": row.text("min"),
            "precision": row.text("precision"), "range": self.ranges.get(row.text("range"), ("",))[0],
            "unit": unit if ":" in unit or not unit else f"obix:units/{unit}"}
        return {name: it for name, it in told.items() if it}

    def own(self, row):
        """What an object has of its row beside that: its words, its value, and whether it can be written."""
        words = [f"def/{row.text('contract')}"] if row.text("contract") else []
        words += ["obix:WritablePoint"] if row.writable == "point" else []
        value = {"null": "true"} if row.is_null else {"val": row.text("value")} if row.text("value") else {}
        return {**({"is": " ".join(words)} if words else {}), **value, **({} if row.writable in NO else {"writable": "true"})}

    def contract(self, path, top=None):
        """A contract, or an object in one: names and facets alone. Hrefs, values and what can be written are each object's own."""
        row, inside = self.at.get(path), "".join(self.contract(it) for it in self.below.get(path, ()))
        kind = "obj" if row is None or row.is_folder else row.kind
        facets = {} if row is None else self.facets(row, top is not None)
        return element(kind, {"name": name_of(path)} if top is None else {"href": f"def/{top}"}, facets, inside=inside)

    def node(self, path):
        row, inside = self.at.get(path), "\n".join(self.node(it) for it in self.below.get(path, ()))
        kind = "obj" if row is None or row.is_folder else row.kind
        told = () if row is None else (self.own(row), self.facets(row))
        return element(kind, {"name": name_of(path), "href": path}, *told, inside=f"\n{inside}\n" if inside else "")

    def range_list(self, href, choices):
        inside = "".join(element("obj", {"name": name}, {"displayName": said} if said else {}) for name, said in choices)
        return element("list", {"href": href, "is": "obix:Range", "of": "obix:obj"}, inside=inside)

    def text(self, name, url):
        groups = (
            ('<list name="contracts">', [self.contract(row.path, it) for it, row in self.first.items()], "</list>"),
            ('<obj name="ranges">', [self.range_list(*it) for it in self.ranges.values()], "</obj>"),
            ("", [self.node(path) for path in self.below.get("", ())], ""),
            ('<obj name="histories" href="histories">', [history(row) for row in self.rows if row.history not in NO], "</obj>"),
            ('<obj name="alarms" href="alarms" is="obix:AlarmSubject"><list name="rules">',
             [rule(row) for row in self.rows if row.text("low")], "</list></obj>"))
        root = {"xmlns": NAMESPACE, "href": url, "is": "obix:Lobby", "displayName": name}
        inside = "\n".join(line for begin, lines, end in groups if lines for line in (begin, *lines, end) if line)
        return element("obj", root, inside=f"\n{inside}\n") + "\n"


def read(name):
    with open(name, "rb") as file:
        data = file.read()
    try:
        return data.decode()
    except UnicodeDecodeError as fault:
        line = data.count(b"\n", 0, fault.start) + 1
        raise OSError(None, f"line {line} isn't UTF-8: a spreadsheet saves it as \"CSV UTF-8\"") from None


def main():
    words = argparse.ArgumentParser(description=__doc__, formatter_class=argparse.RawDescriptionHelpFormatter)
    words.add_argument("points", metavar="POINTS.csv", help="the table")
    words.add_argument("--name", default="Plant", help="the name that the site shows (%(default)s)")
    words.add_argument("--url", default="http://plant/obix/", help="the URL of the site's root (%(default)s)")
    given = words.parse_args()
    if not re.fullmatch(r"https?://[A-Za-z0-9.:\[\]-]+/([A-Za-z0-9._~-]+/)*", given.url):
        words.error(f"--url {given.url}: a URL such as http://plant/obix/, with a slash at its end")
    signal.signal(signal.SIGPIPE, signal.SIG_DFL)   # a reader may have seen enough
    try:
        table = Table(read(given.points))
        site = Site([] if table.faults else table.rows)
        site.judge()
        for line in table.told(given.points):
            print(line, file=sys.stderr)
        if not table.faults:
            sys.stdout.reconfigure(encoding="utf-8")
            print(site.text(given.name, given.url), end="", flush=True)
    except OSError as fault:
        print(f"{given.points}: {fault.strerror}", file=sys.stderr)
        return 2
    return 1 if table.faults else 0


if __name__ == "__main__":
    sys.exit(main())
