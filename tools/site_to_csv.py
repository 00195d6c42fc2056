#!/usr/bin/env python3
"""Makes a table of points of a site file, in the columns that site_from_csv.py takes.

    tools/site_to_csv.py SITE.xml > POINTS.csv

What a table has no place for is said on standard error, a line each: first records of histories, points without an href, texts of
About. A contract is kept by its name: site_from_csv.py makes it of the first object that has it, so the cells of that object say
what it inherits too. This tool stands beside the proved program, and isn't proved. It needs site_from_csv.py and points_table.py
beside it.

status 0: the table is written. 2: the words are no command, or the file is no site file or can't be read or written.
"""
import argparse
import csv
import shlex
import signal
import sys
import urllib.parse
import xml.etree.ElementTree as ET

from points_table import COLUMNS, KINDS
from site_from_csv import name_of

ROLES = {"obix:History", "obix:AlarmSubject", "obix:Range"}
FACETS, UNITS = ("min", "max", "precision"), "obix:units/"
KNOWN = {"name", "href", "is", "val", "null", "displayName", "unit", "range", "writable", *FACETS}


def kind(it):
    return it.tag.rpartition("}")[2]


def named(it, name):
    return next((part for part in it if part.get("name") == name), None)


def value_of(it, name):
    part = named(it, name)
    return None if part is None else part.get("val")


class Site:
    """The objects of a site file, what each inherits, and what histories and rules say of points."""

    def __init__(self, root):
        self.root, self.url, self.notes, self.rows = root, root.get("href"), [], []
        self.words, self.bases, self.first, self.contracts, self.facts = {}, {}, {}, {}, {}
        box = named(root, "contracts")
        for it in box if box is not None else ():
            self.inherit(it, "", ())
            self.contracts[self.path(it.get("href", ""))] = it
        for it in root:
            if it is not box:
                self.inherit(it, "", ())
        ranges = [it for it in root.iter() if it.get("href") and self.is_a(it, "obix:Range")]
        self.ranges = {self.path(it.get("href")): self.range_text(it) for it in ranges}
        for it in root.iter():
            self.fact(it)

    def path(self, href):
        """A path from the root of the site; one that leads elsewhere stays whole."""
        full, base = urllib.parse.urljoin(self.url, href), urllib.parse.urljoin(self.url, ".")
        return full[len(base):].rstrip("/") if full.startswith(base) else href

    # ---- what an object inherits: docs/PROFILE.md, "Contracts"

    def inherit(self, it, implied, above):
        inherited = (self.child(base, it.get("name")) for base in above)
        over = next((part for part in inherited if part is not None), None)
        own = it.get("is", implied or ("" if over is None else " ".join(self.words.get(over, ()))))
        self.words[it] = own.split()
        self.bases[it] = [self.contracts[self.path(word)] for word in self.words[it] if self.path(word) in self.contracts]
        self.bases[it] += [] if over is None else [over]
        for part in it:
            self.inherit(part, it.get("of", "") if kind(it) in ("list", "feed") else "", self.bases[it])

    def child(self, it, name):
        """The child of a name that an object has or inherits."""
        own = named(it, name) if name else None
        inherited = (self.child(base, name) for base in self.bases.get(it, ()))
        return own if own is not None else next((part for part in inherited if part is not None), None)

    def get(self, it, name):
        """An attribute of an object, its own or inherited."""
        own = it.get(name)
        return own if own is not None else next(filter(None, (self.get(base, name) for base in self.bases.get(it, ()))), None)

    def is_a(self, it, word):
        return word in self.words.get(it, ()) or any(self.is_a(base, word) for base in self.bases.get(it, ()))

    # ---- what a table has no place for, and what is said elsewhere

    def note(self, it, text):
        where = it.get("href") or it.get("name") or kind(it)
        self.notes.append(f"{where}: {text}")

    def range_text(self, it):
        names = [(part.get("name") or "", part.get("displayName")) for part in it]
        if any("|" in f"{name}{said}" or "=" in name for name, said in names):
            self.note(it, "a name of this range has a | or a =, which part names in a table")
        return "|".join(name if said is None else f"{name}={said}" for name, said in names)

    def fact(self, it):
        """What a history or a rule says of its source."""
        source = named(it, "source")
        if source is None or not source.get("href"):
            return
        told = self.facts.setdefault(self.path(source.get("href")), {})
        if self.is_a(it, "obix:History"):
            if "history" in told:
                self.note(it, "a second history of one point is left out")
            told.setdefault("history", value_of(it, "capacity") or "all")
            if named(it, "data") is not None:
                self.note(it, "its first records are left out")
        elif named(it, "low") is not None:
            needs = value_of(it, "needsAck") in ("true", "1")
            told.update(low=value_of(it, "low"), high=value_of(it, "high"), ack="yes" if needs else "no")

    # ---- rows

    def walk(self, it, is_full):
        if any(self.is_a(it, word) for word in ROLES):
            return
        contracts = [self.path(word).rpartition("/")[2] for word in self.words[it] if not word.startswith("obix:")]
        for word in contracts[1:]:
            self.note(it, f"its second contract {word} is left out")
        if contracts:
            is_full = self.first.setdefault(contracts[0], it) is it
        is_point, href, is_folder = kind(it) in KINDS, it.get("href"), kind(it) == "obj"
        if href and (is_point or (is_folder and (contracts or it.get("displayName") or len(it) == 0))):
            self.rows.append(self.row(it, contracts[0] if contracts else "", is_full))
        elif is_point:
            self.note(it, "a point without an href is left out")
        elif not is_folder and kind(it) not in ("list", "op", "feed"):
            self.note(it, f"an object of kind {kind(it)} is left out")
        for part in it:
            self.walk(part, is_full)

    def row(self, it, contract, is_full):
        """The cells of an object. Of the first object of a contract they say what it inherits; of the others its own facets alone."""
        get, path = (self.get if is_full else lambda part, name: part.get(name)), self.path(it.get("href"))
        told = {"path": path, "name": get(it, "displayName"), "kind": "folder" if kind(it) == "obj" else kind(it), "contract": contract}
        if path.startswith(("/", "http:", "https:")) or it.get("name") != name_of(path):
            self.note(it, f"it is named {it.get('name')}, and would be named {name_of(path)}")
        for name in sorted(set(it.attrib) - KNOWN):
            self.note(it, f"its {name} is left out")
        if kind(it) == "obj":
            return told
        unit = get(it, "unit") or ""
        told.update({name: get(it, name) for name in FACETS})
        told.update(value=self.value(it), writable=self.writable(it), unit=unit[len(UNITS):] if unit.startswith(UNITS) else unit)
        told.update(range=self.ranges.get(self.path(get(it, "range") or ""), ""))
        return {**told, **self.facts.get(path, {})}

    def value(self, it):
        if it.get("null") not in ("true", "1"):
            return self.get(it, "val")
        if kind(it) in ("str", "uri"):
            self.note(it, "that it is null is left out")
        return "" if kind(it) in ("str", "uri", "enum") else "null"

    def writable(self, it):
        is_put = self.get(it, "writable") in ("true", "1")
        if self.is_a(it, "obix:WritablePoint"):
            if not is_put:
                self.note(it, "it is written by writePoint alone, and would be by a PUT too")
            return "point"
        return "yes" if is_put else ""

    def table(self):
        """The rows of the table."""
        for it in self.root:
            if it.get("name") == "about":
                self.note(it, "the texts of About are left out")
            elif it.get("name") != "contracts":
                self.walk(it, False)
        for it in self.first.values():
            points = {part.get("name") for part in it if part.get("href")}
            for base in self.bases[it][:1]:
                gone = ", ".join(str(part.get("name")) for part in base if part.get("name") not in points)
                if gone:
                    self.note(base, f"{gone} of this contract is left out: its first object, {it.get('href')}, has no point of the name")
        return self.rows


def main():
    words = argparse.ArgumentParser(description=__doc__, formatter_class=argparse.RawDescriptionHelpFormatter)
    words.add_argument("site", metavar="SITE.xml", help="the site file")
    given = words.parse_args()
    signal.signal(signal.SIGPIPE, signal.SIG_DFL)   # a reader may have seen enough
    try:
        root = ET.parse(given.site).getroot()
        if not root.get("href", "").startswith(("http://", "https://")):
            raise ET.ParseError("no site file: its root has no href such as http://plant/obix/")
        site = Site(root)
        rows = site.table()
        sys.stdout.reconfigure(encoding="utf-8")
        out = csv.DictWriter(sys.stdout, COLUMNS, lineterminator="\n")
        out.writeheader()
        out.writerows({name: it for name, it in row.items() if it is not None} for row in rows)
        sys.stdout.flush()
    except (OSError, ET.ParseError) as fault:
        print(f"{given.site}: {getattr(fault, 'strerror', None) or fault}", file=sys.stderr)
        return 2
    options = {"--name": (root.get("displayName"), "Plant"), "--url": (root.get("href"), "http://plant/obix/")}
    more = " ".join(f"{name} {shlex.quote(it)}" for name, (it, usual) in options.items() if it and it != usual)
    for line in site.notes + ([f"the options of site_from_csv.py for it: {more}"] if more else []):
        print(f"{given.site}: {line}", file=sys.stderr)
    return 0


if __name__ == "__main__":
    sys.exit(main())
