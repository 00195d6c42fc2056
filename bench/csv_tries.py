"""The tries of bench/csv.sh: tables of points, trends as CSV, records for changed site files."""
import csv
import io
import os
import random
import re
import subprocess
import sys
import time

from tries import TOP, Server, main

sys.path.insert(0, str(TOP / "tools"))
import link                                # noqa: E402
from record_file import Record             # noqa: E402
from points_table import COLUMNS           # noqa: E402
from lint.asking import Trouble            # noqa: E402

HEAD = ",".join(COLUMNS) + "\n"            # A path, B name, C kind, D value, E unit, F min, G max, H precision, I writable, J range,
FAULTS = [                                 # K history, L low, M high, N ack, O contract: rows, and what is said of them
    ("boiler flow,,real", "2:A: path 'boiler flow' is no path"),
    ("a/../b,,real", "2:A: path 'a/../b' is no path"),
    ("/".join("abcdefghijklmnopqrstuvwxyzABCD") + ",,real", "2:A: path 'a/b/c"),
    ("alarms/x,,int", "2:A: path 'alarms/x' begins with alarms"),
    ("contracts/x,,int", "2:A: path 'contracts/x' begins with contracts"),
    ("a,,int\n# a note\n\n  a/ ,,int", "5:A: path 'a' stands in line 2 already"),
    ("a-b,,int\na.b,,int", "3:A: path 'a.b': a.b would have the name a_b, as a-b has it"),
    ("a,,int,,,,,,point\na/writePoint,,int", "3:A: path 'a/writePoint': the server makes an object of this name for a"),
    ("a,,int,,,,,,yes,,5\na/query,,int,,,,,,yes,,5", "3:A: path 'a/query': the server makes"),
    ("a,,float", "2:C: kind 'float' is no kind"),
    ('a,"x\ny",int\nb,,what', "4:C: kind 'what' is no kind"),
    ('a,,real,"71,5"', "2:D: value '71,5' is no real (a decimal comma? write a point)"),
    ('a,,real,1,,"0,5"', "2:F: min '0,5' is no real (a decimal comma? write a point)"),
    ("a,,real,5.", "2:D: value '5.' is no real"),
    ("a,,real,1234567890.123456789", "2:D: value '1234567890.123456789' is no real"),
    ("a,,real,NaN", "2:D: value 'NaN' is no real"),
    ("a,,int,7.5", "2:D: value '7.5' is no int"),
    ("a,,int,9223372036854775808", "2:D: value '9223372036854775808' is no int"),
    ("a,,bool,on", "2:D: value 'on' is no bool"),
    ("a,,date,2026-02-30", "2:D: value '2026-02-30' is no date"),
    ("a,,time,24:00:00", "2:D: value '24:00:00' is no time"),
    ("a,,abstime,2026-01-05T08:00:00", "2:D: value '2026-01-05T08:00:00' is no abstime"),
    ("a,,reltime,P", "2:D: value 'P' is no reltime"),
    ("a,,int,,,9,3", "2:G: max 3 is below min 9"),
    ("a,,int,2,,3,9", "2:D: value 2 is below min 3"),
    ("a,,int,,,3,9", "2:D: value 0 is below min 3"),
    ("a,,int,12,,3,9", "2:D: value 12 is above max 9"),
    ("a,,str,abc,,,2", "2:D: the length of value, 3, is above max 2"),
    ("a,,bool,true,,0", "2:F: min '0' stands at a point of kind bool"),
    ("a,,int,1,°C", "2:E: unit '°C' is no name such as celsius"),
    ("a,,int,1,,,,x", "2:H: precision 'x' is no number of places"),
    ("a,,int,,,,,,maybe", "2:I: writable 'maybe' is neither yes nor no nor point"),
    ("a,,int,,,,,,,x|y", "2:J: range 'x|y' stands at a point of kind int"),
    ("a,,enum", "2:J: range is empty"),
    ("a,,enum,x,,,,,,x|y=2|x", "2:J: range: 'x' comes twice"),
    ("a,,enum,x,,,,,,x|1st", "2:J: range: '1st' is no name"),
    ("a,,enum,z,,,,,,x|y", "2:D: value 'z' isn't in the range: x y"),
    ("a,,int,,,,,,yes,,1000001", "2:K: history '1000001' is no number"),
    ("a,,int,,,,,,,,5", "2:K: history '5' stands at a point that isn't writable"),
    ("a,,int,,,,,,yes,,600000\nb,,int,,,,,,yes,,600000\nc,,int,,,,,,yes,,600000",
     "3:K: with this one the histories keep 1,200,000 records together, and may keep 1,000,000"),
    ("a,,int,5,,,,,yes,,900000,1,9\nb,,int,,,,,,yes,,1",
     "3:K: with this one the histories keep 900,001 records together, and may keep 900,000"),
    ("a,,int,1,,,,,yes,,,1", "2:M: high '' is missing: there is a low"),
    ("a,,int,1,,,,,yes,,,,1", "2:L: low '' is missing: there is a high"),
    ("a,,int,5,,,,,yes,,,9,1", "2:M: high 1 is below low 9"),
    ("a,,int,,,,,,yes,,,3,9", "2:D: value 0 is below low 3: no alarm is raised as the site opens"),
    ("a,,str,,,,,,yes,,,1,2", "2:L: low '1' is an alarm's"),
    ("a,,int,1,,,,,,,,1,2", "2:L: low '1' stands at a point that isn't writable"),
    ("a,,int,1,,,,,yes,,,1,2,often", "2:N: ack 'often' is neither yes nor no"),
    ("a,,int,1,,,,,yes,,,,,yes", "2:N: ack 'yes' stands at a point without low and high"),
    ("a,,folder,1", "2:D: value '1' stands at a folder"),
    ("a,,int,,,,,,,,,,,,my pump", "2:O: contract 'my pump' is no name"),
    ("a,,folder,,,,,,,,,,,,P\na/s,,int\nb,,folder,,,,,,,,,,,,P\nb/s,,real", "5:C: kind 'real' isn't int, which line 3 has"),
    ("a,,folder,,,,,,,,,,,,P\na/s,,int,,,,9\nb,,folder,,,,,,,,,,,,P\nb/s,,int,50", "5:D: value 50 is above max 9"),
    ("a,,folder,,,,,,,,,,,,P\n" + "\n".join(f"a/s{n},,int" for n in range(512)), "2:O: contract 'P' would have 513 objects"),
    ("a,,int,,,,,,,,,,,,,more", "2:P: 'more' stands in a column without a name"),
    ("a,x\x07y,int", "2:B: name has a character that no document may have: '\\x07'"),
    ('a,"x,int', "2:A: unexpected end of data, in the row that begins here"),
]


def run(tool, *words):
    return subprocess.run([sys.executable, TOP / "tools" / tool, *words], capture_output=True, text=True)


def lint(room, text):
    """Whether site_lint.py has nothing to say of a site file, and what it says."""
    file = room.folder / "lint.xml"
    file.write_text(text, encoding="utf-8")
    it = run("site_lint.py", file, "--obix", room.program)
    return it.returncode == 0, it.stdout + it.stderr


def site_of(room, table, *words):
    """The site file of a table, and what was said."""
    file = room.folder / "points.csv"
    file.write_bytes(table if isinstance(table, bytes) else table.encode())
    it = run("site_from_csv.py", file, *words)
    return it.returncode, it.stdout, it.stderr.replace(f"{file}:", "")


def rows_of(table):
    lines = (line for line in table.splitlines(keepends=True) if not line.startswith("#"))
    return {row["path"]: {name: row.get(name) or "" for name in COLUMNS} for row in csv.DictReader(lines)}


# ---- tables


def faults(room):
    for row, wanted in FAULTS:
        status, site, said = site_of(room, HEAD + row + "\n")
        if status != 1 or site or not any(line.startswith(wanted) for line in said.splitlines()):
            room.judge(False, f"{row[:60]!r}", f"status {status}: {said}, not {wanted}")
    room.judge(True, f"faults: {len(FAULTS)} tables, each told at its line and column")
    for text, status, wanted in (
            (b"name,kind,path,path,Zone\nx,y,z,z,q\n", 1, ("1:D: a second column path", "1:E: no column is named 'Zone'")),
            (b"path;name\na;b\n", 1, ("1:A: no column kind",)), (b"", 1, ("1:A: there is nothing in it",)),
            ("path,kind,name\na,int,Lüftung\n".encode("latin-1"), 2, (" line 2 isn't UTF-8",))):
        it = site_of(room, text)
        room.judge(it[0] == status and not it[1] and all(line in it[2] for line in wanted), f"{text[:30]!r}: status {status}", it)
    it = run("site_from_csv.py", room.folder / "none.csv")
    room.judge(it.returncode == 2 and "No such file" in it.stderr, "no such table: status 2", it.stderr)
    it = run("site_to_csv.py", TOP / "examples/point.http")
    room.judge(it.returncode == 2 and it.stderr.count("\n") == 1, "no site file: status 2", it.stderr)


def back(room):
    """Both site files of examples/ to tables and back, and its tables to site files and back."""
    for name in ("plant-room.xml", "heating-plant.xml"):
        first = run("site_to_csv.py", TOP / "examples" / name)
        status, site, said = site_of(room, first.stdout)
        (room.folder / "back.xml").write_text(site)
        again = run("site_to_csv.py", room.folder / "back.xml").stdout
        room.judge(status == 0 and first.stdout == again, f"{name}: {len(rows_of(again))} rows, the same after site and back", said)
        opens = subprocess.run([room.program, "stdio", room.folder / "back.xml"], stdin=subprocess.DEVNULL).returncode
        room.judge(opens == 0, f"{name}: the site of its table opens")
    for name, points in (("points.csv", 19), ("building.csv", 2000)):
        text = (TOP / "examples" / name).read_text(encoding="utf-8")
        status, site, said = site_of(room, text)
        good, found = lint(room, site)
        (room.folder / "back.xml").write_text(site)
        again = run("site_to_csv.py", room.folder / "back.xml")
        same = rows_of(again.stdout) == rows_of(text) and len(rows_of(text)) == points
        room.judge(status == 0 and good and same, f"{name}: {points} rows, nothing to say of its site, and back the same", f"{said} {found[:400]}")
    building = subprocess.run([sys.executable, TOP / "dev/building.py"], capture_output=True, text=True).stdout
    room.judge(building == (TOP / "examples/building.csv").read_text(), "building.csv is what dev/building.py writes")
    room.judge(site.count('is="obix:History"') == 200 and site.count('name="needsAck"') == 300, "building.csv: 200 histories and 300 rules")


def random_rows(chance, count):
    rows, seen = [], set()
    for _ in range(count):
        parts = (chance.choice(["a", "b-1", "c.2", "3d", "E_", "x~y"]) + str(chance.randrange(9)) for _ in range(chance.randrange(1, 5)))
        path = "/".join(parts)
        if any(it == path or it.startswith(path + "/") or path.startswith(it + "/") for it in seen):
            continue
        seen.add(path)
        kind, row = chance.choice(["bool", "int", "real", "str", "enum", "int", "real", "date", "reltime"]), dict.fromkeys(COLUMNS, "")
        row.update(path=path, kind=kind, name=chance.choice(["", "Läuft & <gut>", 'a "b"', "x, y; z", "日本", "it's", "\tx\ny".strip()]),
                   writable=chance.choice(["", "yes", "point"]))
        if kind in ("int", "real"):
            low = chance.randrange(-50, 50)
            value = chance.choice([str(low + 5) + (".5" if kind == "real" else ""), "null"])
            row.update(value=value, unit=chance.choice(["", "celsius", "percent"]), min=chance.choice(["", str(low)]), max=str(low + 100))
            if row["writable"]:
                row["history"] = chance.choice(["", "100", "7"])
            if row["writable"] and chance.random() < 0.3:
                row.update(low=str(low), high=str(low + 50), ack=chance.choice(["yes", "no"]))
        elif kind == "enum":
            row.update(range="off=Aus|day|night=Nacht & Tag", value=chance.choice(["day", ""]))
        else:
            row.update(value=chance.choice(["", {"bool": "true", "str": " a\"b ", "date": "2026-02-28", "reltime": "PT5M"}[kind]]))
        rows.append(row)
    return rows


def tables(room, count=30):
    points = 0
    for turn in range(count):
        rows, out, choice = random_rows(room.chance, 40), io.StringIO(), room.chance.choice
        table = csv.DictWriter(out, room.chance.sample(COLUMNS, len(COLUMNS)), delimiter=choice(",;\t"),
                               lineterminator=choice(["\n", "\r\n"]), quoting=choice([csv.QUOTE_MINIMAL, csv.QUOTE_ALL]))
        table.writeheader()
        table.writerows(rows)
        status, site, said = site_of(room, ("\ufeff" if turn % 3 == 0 else "") + out.getvalue(), "--url", "http://h:8080/site/x/")
        good, found = lint(room, site)
        (room.folder / "back.xml").write_text(site, encoding="utf-8")
        got = rows_of(run("site_to_csv.py", room.folder / "back.xml").stdout)
        wanted = {row["path"]: row for row in rows}
        if status or not good or got != wanted:
            other = next(((got.get(it), wanted[it]) for it in wanted if got.get(it) != wanted[it]), said + found[:300])
            room.judge(False, f"random table {turn}", other)
        points += len(rows)
    room.judge(True, f"random: {count} tables with {points} points: nothing to say of their sites, and back each row is the same")


# ---- trends


def trend(server, path, *words):
    it = run("history_csv.py", server.url, path, *words)
    return it.returncode, [tuple(row) for row in csv.reader(io.StringIO(it.stdout))][1:], it.stderr


def batches(server, path, values):
    """Writes to one point by batches of 1,000: so many records have one moment."""
    for at in range(0, len(values), 1000):
        items = "".join(f'<uri is="obix:Write" val="/obix/{path}"><int name="in" val="{it}"/></uri>' for it in values[at:at + 1000])
        server.ask("POST", "batch", f"<list>{items}</list>", 60)


def trends(room):
    table = HEAD + "p,,int,,,,,,yes,,40000\nr,,int,,,,,,yes,,500\nq,,real,,,,,,yes,,100\nn,,int\n"
    server = room.server("trends", site_of(room, table)[1], "serve")
    batches(server, "p", range(1, 25_001))
    told = server.records("histories/p")
    status, got, _ = trend(server, "histories/p")
    moments = len({it[0] for it in told})
    room.judge(status == 0 and got == told and len(got) == 25_000, f"25,000 records at {moments} moments, by the page: as the server has them")
    at = told[3500][0]
    for words, wanted in (
            (("--limit", "10500"), told[:10_500]),
            (("--from", at), [it for it in told if it[0] >= at]), (("--to", at), [it for it in told if it[0] <= at]),
            (("--from", at, "--to", at), [it for it in told if it[0] == at]), (("--from", "2100-01-01"), []),
            (("--from", at[:10], "--to", at[:10], "--limit", "5"), told[:5])):
        room.judge(trend(server, "p", *words)[:2] == (0, wanted), f"{' '.join(words)}: {len(wanted)} records, of the point's own path")
    batches(server, "r", range(1, 2001))
    told = server.records("histories/r")
    room.judge(trend(server, "r")[1] == told and len(told) == 500, "a history that rolled: its 500 records")
    for value in ("0.1", "-12345678.123456789", "1e3"):
        server.ask("PUT", "q", f'<real val="{value}"/>')
    room.judge([it[1] for it in trend(server, "q")[1]] == ["0.1", "-12345678.123456789", "1000"], "exact values")
    server.ask("PUT", "q", '<real null="true"/>')
    room.judge(trend(server, "q")[1][-1][1] == "", "null is empty")
    for words, status in (("n", 1), ("none", 1), ("p --from yesterday", 2), ("p --from 2026-02-30", 2), ("p --to 2026-01-05T08:00", 2), ("p --limit x", 2)):
        it = trend(server, *words.split())
        room.judge(it[0] == status and it[2].startswith(("history_csv:", "usage:")), f"{words}: status {status}", it)
    busy(room, server)
    server.kill()
    room.judge(trend(server, "p")[0] == 1, "no server: status 1")


def busy(room, server):
    """A small ring that rolls while it is read by the page: no record twice, each in its order."""
    start, seen, turns, client, gaps = 100_000, [], 0, link.Link(server.url, True), []
    batches(server, "r", range(start, start + 300))
    for _, value in link.records(client, "/obix/histories/r/query", page=7, gap=lambda *between: gaps.append(between)):
        seen.append(int(value.get("val")))
        if len(seen) % 7 == 0 and turns < 60:
            batches(server, "r", range(start + 300 + turns * 5, start + 300 + turns * 5 + 5))
            turns += 1
    room.judge(is_whole(seen, start),
               f"a ring of 500 that rolled {turns} times while it was read, 7 records a page: none twice, none missing", (seen[-5:], gaps))
    room.judge(not gaps, "no gap is told where there is none", gaps)
    late(room, server, client)
    client.close()


def is_whole(seen, start):
    """Whether records are each once, in their order: what was there before, then all that was written."""
    return seen == [it for it in seen if it < start] + list(range(start, start + 600)) and seen == sorted(set(seen))


def late(room, server, client):
    """A reader that is slower than the ring: the gap is told."""
    gaps, seen = [], []
    for _, value in link.records(client, "/obix/histories/r/query", page=50, gap=lambda *between: gaps.append(between)):
        seen.append(int(value.get("val")))
        if len(seen) == 50:
            batches(server, "r", range(200_000, 200_600))
    room.judge(len(gaps) == 1 and seen[50:] == list(range(200_100, 200_600)),
               "a ring that overtook its reader: the gap is told, and what is left is read", (gaps, seen[48:53]))


# ---- records for changed site files


SITE = HEAD + """t,Temperature,real,20,celsius,-40,60,,yes,,1000,10,30,yes,
u,Count,int,5,,,,,yes,,1000,0,100,no,
p,Setpoint,real,21,celsius,10,90,,point,,100,,,,
s,Note,str,,,,,,yes,,,,,,
e,Mode,enum,day,,,,,yes,off|day|night,50,,,,
"""


def write_all(server):
    """Writes of each kind, alarms, acknowledgements, a watch and batches."""
    put = lambda path, body: server.ask("PUT", path, body)     # noqa: E731
    put("t", '<real val="35"/>')                               # alarm 1
    server.acknowledge(1, "ann")
    put("t", '<real val="20"/>')
    put("u", '<int val="200"/>')                               # alarm 2
    server.ask("POST", "watchService/make")
    put("u", '<int val="7"/>')
    put("t", '<real val="40"/>')                               # alarm 3
    put("s", '<str val="/obix/t &amp; &quot;/obix/u&quot; 2026-01-01T00:00:00Z"/>')
    server.ask("POST", "p/writePoint", '<obj><real name="value" val="85"/></obj>')
    put("p", '<real val="50.25"/>')
    put("e", '<enum val="night"/>')
    server.ask("POST", "batch", '<list><uri is="obix:Write" val="/obix/u"><int name="in" val="300"/></uri>'      # alarm 4
               '<uri is="obix:Write" val="t"><real name="in" val="21"/></uri><uri is="obix:Write" val="t"><real name="in" val="45"/></uri>'
               '<uri is="obix:Invoke" val="/obix/alarm/3/ack"><obj name="in"><str name="ackUser" val="bob"/></obj></uri>'
               '<uri is="obix:Read" val="/obix/p"/><uri is="obix:Write" val="/obix/none"><int name="in" val="1"/></uri></list>')   # alarm 5
    put("t", '<real val="22"/>')
    server.acknowledge(5, "eve")


def state(server, top="/obix/", moved=()):
    """What a site has: values, records of histories by their points, and alarms, by their old paths."""
    def path(text):
        text = "/" + text[len(top):]
        return next((old + text[len(new):] for old, new in moved if text == new or text.startswith(new + "/")), text)

    def alarm(it):
        return tuple(path(part.get("href")) if part.get("name") == "source" else part.get("val") or "" for part in it if part.get("name") != "ack")

    tree, found = server.ask("GET", "../" + top[1:] if top != "/obix/" else ""), {}
    for it in tree.iter():
        parts = {part.get("name"): part for part in it}
        if it.get("href") and it.get("val") is not None:
            found[path(it.get("href"))] = it.get("val")
        elif it.get("href") and "query" in parts:
            reply = server.ask("POST", "../" + parts["query"].get("href")[1:], '<obj><int name="limit" val="100000"/></obj>')
            data = next(part for part in reply if part.get("name") == "data")
            if "source" in parts:
                records = [tuple(part.get("val") for part in record) for record in data]
                found["history of " + path(parts["source"].get("href"))] = records
            else:
                found["alarms"] = sorted(map(alarm, data))
    return found


def changed(text, *pairs):
    for old, new in pairs:
        assert old in text, old
        text = text.replace(old, new)
    return text


class Moved:
    """The record of a server moved to another site file: the status, the lines, and the server of it, that is started."""

    def __init__(self, room, name, old, text, *words):
        self.room, self.server = room, Server(room, name, text)
        it = run("move_record.py", old.site, old.record, self.server.site, self.server.record, *words, "--obix", room.program)
        self.status, self.lines, self.said = it.returncode, it.stdout.splitlines(), it.stderr
        if self.status in (0, 3):
            self.server.start()

    def says(self, *wanted):
        """Whether some line begins with each of these."""
        return all(any(re.match(it, line) for line in self.lines) for it in wanted)

    def judge(self, text, status, holds):
        self.room.judge(self.status == status and holds, text, (self.status, self.lines, self.said))


def same_but(one, other, *paths):
    return {it for it in {**one, **other} if one.get(it) != other.get(it)} == set(paths)


def moves(room):
    text = site_of(room, SITE)[1]
    old = room.server("old", text)
    write_all(old)
    before, bytes_ = state(old), old.record.read_bytes()
    it = run("move_record.py", old.site, old.record, old.site, room.folder / "no", "--obix", room.program)
    room.judge(it.returncode == 1 and "a server has it" in it.stderr, "a record in use: status 1", it.stderr)
    old.kill()
    names = ("Temperature", "Flow"), ("obix:units/celsius", "obix:units/kelvin"), ("Count", "Number &amp; more"), ("http://plant", "https://x:8443")
    told = Moved(room, "labels", old, changed(text, *names))
    told.judge("names, units and host: nothing left out, all at its old instant", 0, len(told.lines) == 1 and state(told.server) == before)
    write_all(told.server)
    more = state(told.server)
    told.server.kill()
    again = Moved(room, "again", told.server, text)
    again.judge("and moved back, once more was written to it", 0, state(again.server) == more and len(more["alarms"]) == 9)
    limits(room, old, text, before)
    paths(room, old, text, before)
    refusals(room, old, text)
    room.judge(old.record.read_bytes() == bytes_, "the old record is what it was")


def limits(room, old, text, before):
    def tried(name, what, status, judge, *pairs, table=None):
        told = Moved(room, name, old, changed(text, *pairs) if table is None else site_of(room, table)[1])
        told.judge(what, status, judge(told, state(told.server)))

    alarms, gone = before["alarms"], [it for it in before["alarms"] if it[0] == "/t" and "35" in it]
    tried("high", "an alarm limit: an alarm of five isn't raised, the others have their acknowledgements", 3, lambda told, now:
          same_but(before, now, "alarms") and now["alarms"] == [it for it in alarms if it not in gone] and len(gone) == 1 and told.says(
              "/obix/t: 1 acknowledgement left out: its alarm isn't raised", "/obix/t: an alarm of .*: isn't raised any more"),
          ('name="high" val="30"', 'name="high" val="37"'))
    tried("higher", "an acknowledgement in a batch, of an alarm that isn't raised", 3, lambda told, now:
          same_but(before, now, "alarms") and len(now["alarms"]) == 3 and set(now["alarms"]) < set(alarms) and told.says(
              "/obix/t: 2 acknowledgements left out"),
          ('name="high" val="30"', 'name="high" val="42"'))
    tried("more", "an alarm more than before: the others are as they were, though they have other numbers", 0, lambda told, now:
          set(alarms) < set(now["alarms"]) and len(now["alarms"]) == 6 and told.says("/obix/p: an alarm of .*: is raised now"),
          table=SITE.replace(",100,,,,\n", ",100,10,60,no,\n"))
    tried("max", "a maximum", 3, lambda told, now:
          same_but(before, now, "history of /p") and told.says("/obix/p: 1 write left out: above max \\(20"), ('max="90"', 'max="60"'))
    tried("first", "a first value that was written first", 3, lambda told, now: told.says("/obix/histories/t: 6 records before, 5 now"),
          ('val="20"', 'val="35"'), ('name="high" val="30"', 'name="high" val="50"'))
    tried("capacity", "a capacity", 3, lambda told, now: told.says("/obix/histories/t: 6 records before, 2 now"), ('val="1000"', 'val="2"'))


def paths(room, old, text, before):
    told = Moved(room, "removed", old, site_of(room, re.sub("\nu,.*", "", SITE))[1])
    now = state(told.server)
    told.judge("a point that is gone: all else is there, one of a batch too", 3,
               same_but(before, now, "/u", "history of /u", "alarms") and len(now["alarms"]) == 3
               and told.says("/obix/u: 3 writes left out: no such object", "/obix/histories/u: 3 records before, 0 now"))
    table = SITE.replace("\nt,", "\nroom/1/temp,").replace("\np,", "\nroom/1/set,")
    told = Moved(room, "renamed", old, site_of(room, table)[1], "--moved", "t", "room/1/temp", "--moved", "/obix/p", "/obix/room/1/set")
    now = state(told.server, moved=(("/t", "/room/1/temp"), ("/p", "/room/1/set")))
    told.judge("renamed points, also in batches: all at its old instant, a text with the old path as it was", 0, now == before)
    told = Moved(room, "typo", old, text, "--moved", "tt", "t")
    told.judge("--moved of what isn't there is told", 0, told.says("--moved tt t: nothing of the record is of tt"))
    told = Moved(room, "root", old, changed(text, ("http://plant/obix/", "http://plant/site/7/")))
    told.judge("another path of the root", 0, state(told.server, "/site/7/") == before)
    first = '<list name="data"><obj><abstime name="timestamp" val="2031-01-01T00:00:00Z"/><real name="value" val="1"/></obj></list>'
    told = Moved(room, "late", old, changed(text, ('<ref name="source" href="p"/>', '<ref name="source" href="p"/>' + first)))
    told.judge("a site file with a later record: the site's time is its own", 0,
               min(state(told.server)["history of /t"])[0] == "2031-01-01T00:00:00Z")


def refusals(room, old, text):
    new, record, wrong, empty = (room.folder / it for it in ("new.xml", "new.record", "wrong", "empty.record"))
    new.write_text(text)

    def refused(what, wanted, *files):
        it = run("move_record.py", *files, "--obix", room.program)
        left = sorted(path.name for path in room.folder.iterdir() if "new.record" in path.name or "move_record" in path.name)
        room.judge(it.returncode == 1 and wanted in it.stderr and not left, f"{what}: status 1, and no new record", (it, left))

    wrong.write_text(text.replace("Temperature", "Flow"))
    refused("a record of another site file", "is no record of", wrong, old.record, new, record)
    wrong.write_text(text.replace('name="low" val="10"', 'name="low" val="99"'))
    refused("a site file that is refused", "refused: Rule", old.site, old.record, wrong, record)
    refused("no record", "No such file", old.site, room.folder / "none", new, record)
    wrong.write_bytes(old.record.read_bytes().replace(b"\n", b"X", 3))
    refused("no record at all", "from byte 0 on", old.site, wrong, new, record)
    it = run("move_record.py", old.site, old.record, new, old.record, "--obix", room.program)
    room.judge(it.returncode == 1 and "there is such a file" in it.stderr, "a new record that is there: status 1", it.stderr)
    room.judge(run("move_record.py", old.site).returncode == 2, "words that are no command: status 2")
    for bytes_ in (b"", b"obix-record 1\0"):
        empty.write_bytes(bytes_)
        it = run("move_record.py", old.site, empty, new, record, "--obix", room.program)
        is_empty = it.returncode == 0 and record.read_bytes() == b"obix-record 1\0"
        room.judge(is_empty, f"a record without an entry, {len(bytes_)} bytes", it.stderr)
        record.unlink()


def cut_or_damaged(whole):
    """A record cut at each byte, with another byte at each place of its end, and with something behind it."""
    begin = whole.index(b" PUT ", whole.index(b" PUT ") + 1) - 20
    yield from (whole[:at] for at in range(len(whole)))
    yield from (whole[:at] + bytes([byte]) + whole[at + 1:] for at in range(begin, len(whole)) for byte in (0, 10, 88))
    yield from (whole + more for more in (b"\0", b"x", b"1796 PUT 1 1 1\nabc\0", b"\n", b"1 GET 0 0 6\n<obj/>"))
    yield from (whole[:-1] + more for more in (b"\n1", b"x1", b"\nabc", b"x1 GET 0 0 6\n<obj/>y"))


def ends(room):
    """What a stop leaves, and damages: the reader of records takes what the program takes, and the same entries."""
    server = room.server("ends", site_of(room, HEAD + "a,,int,,,,,,yes\n")[1])
    for value in range(1, 4):
        server.put("a", value)
    server.kill()
    whole, file, out, agree = server.record.read_bytes(), room.folder / "end.record", room.folder / "end.short", 0
    cases = list(cut_or_damaged(whole))
    for it in cases:
        file.write_bytes(it)
        out.unlink(missing_ok=True)
        done = subprocess.run([room.program, "compact", server.site, file, out], capture_output=True, text=True)
        try:
            count = len(list(Record(file)))
        except Trouble:
            count = None
        told = re.fullmatch(r"compacted \d+ of (\d+)\n", done.stdout)
        # a byte of a reply, of a body or of a number that is another: the program refuses it here, move_record.py when it runs it
        is_later = done.returncode == 13 or ("Record" in done.stderr and len(it) == len(whole))
        good = count == int(told[1]) if told else count is None or is_later
        agree += good
        if not good:
            room.judge(False, f"{len(it)} bytes, {it[-60:]!r}", (count, done.stdout, done.stderr))
    room.judge(agree == len(cases), f"{agree} records that are cut or damaged: the same entries as the program, or a refusal")


def many(room, count=20_000, points=1000):
    """A record of so many entries for another name to show on all points: the processor's seconds, and what `keep` makes of it."""
    rows = (f"f{n // 40}/p{n},Point {n},real,20,celsius,-50,950,1,point,,{'' if n % 5 else 100},{',,' if n % 7 else '-50,40,yes'},\n"
            for n in range(points))
    table, (site, new, record, out) = HEAD + "".join(rows), (room.folder / it for it in ("m.xml", "m.new.xml", "m.record", "m.new.record"))
    site.write_text(site_of(room, table)[1])
    new.write_text(site_of(room, table.replace("Point ", "Sensor "))[1])
    bodies = (b'<real val="%d.5"/>' % ((n * 7919 // points) % 60 + n % 3) for n in range(count))
    requests = b"".join(b"PUT /obix/f%d/p%d HTTP/1.1\r\nContent-Length: %d\r\n\r\n%s" % (n % points // 40, n % points, len(body), body)
                        for n, body in enumerate(bodies))
    with open(record, "wb") as file:
        subprocess.run([room.program, "record", site, "--at", "1767600000000", "--tick", "250"], input=requests, stdout=file, check=True)
    with open(record, "r+b") as file:
        file.seek(-1, os.SEEK_END)
        file.write(b"\0")
    began, before = time.monotonic(), os.times()
    it = run("move_record.py", site, record, new, out, "--obix", room.program)
    spent = sum(os.times()[2:4]) - sum(before[2:4])
    room.judge(it.returncode == 0, f"{count:,} entries, {record.stat().st_size / 1e6:.0f} MB, in {spent:.1f} s of the processor,"
               f" {time.monotonic() - began:.1f} by the clock: {it.stdout.strip()[-60:]}", it)


if __name__ == "__main__":
    sys.exit(main("csv", {it.__name__: it for it in (faults, back, tables, trends, moves, ends, many)}))
