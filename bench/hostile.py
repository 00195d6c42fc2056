"""The forms of bench/hostile.sh: documents for `check`, site files that `stdio` opens, streams of requests to a site, and files of
`schedule`, each by how many times something stands in it."""
import math
import os
import resource
import sys
import tempfile

program, point, runs, part = sys.argv[1], sys.argv[2], int(sys.argv[3]), sys.argv[4]
MOST = 2.2
# no form may take more, so that one that grows is told and doesn't take the machine with it
MEMORY, SECONDS = 4_000_000_000, 30
BASE = "http://h/obix/"
AT = ["--at", "1767600000000", "--tick", "1"]

DOCUMENTS = {
    "spaces": (8_000_000, lambda n: b" " * n),
    "start tags that nest": (3_000_000, lambda n: b"<obj>" * n),
    "attributes that aren't known": (200_000, lambda n: b"<obj" + b"".join(b' a%d=""' % k for k in range(n)) + b"/>"),
    "the last attribute twice": (200_000, lambda n: b"<obj" + b"".join(b' a%d=""' % k for k in range(n)) + b' a0=""/>'),
    "siblings with names": (200_000, lambda n: b"<obj>" + b"".join(b'<int name="%d"/>' % k for k in range(n)) + b"</obj>"),
    "the last sibling's name twice": (200_000, lambda n: b"<obj>" + b"".join(b'<int name="%d"/>' % k for k in range(n)) + b'<int name="0"/></obj>'),
    "a comment": (8_000_000, lambda n: b"<!--" + b"x" * n + b"--><obj/>"),
    "dashes in a comment": (4_000_000, lambda n: b"<!--" + b"- " * n + b"--><obj/>"),
    "comments": (500_000, lambda n: b"<!---->" * n + b"<obj/>"),
    "question marks in an instruction": (8_000_000, lambda n: b"<?a " + b"?" * n + b">" + b"?><obj/>"),
    "references in a value": (1_000_000, lambda n: b'<str val="' + b"&amp;" * n + b'"/>'),
    "a value without an end": (8_000_000, lambda n: b'<str val="' + b"x" * n),
    "a name without an end": (8_000_000, lambda n: b"<" + b"x" * n),
    "digits of an int": (8_000_000, lambda n: b'<int val="' + b"9" * n + b'"/>'),
    "digits of a real": (8_000_000, lambda n: b'<real val="1.' + b"0" * n + b'"/>'),
    "words of an is": (1_000_000, lambda n: b'<obj is="' + b"a " * n + b'"/>'),
    "references to characters": (1_000_000, lambda n: b'<str val="' + b"&#x41;" * n + b'"/>'),
}


def site(contracts, rest=""):
    """A lobby with these contracts and objects."""
    return f'<obj href="{BASE}" is="obix:Lobby"><list name="contracts">{contracts}</list>{rest}</obj>'.encode()


def each(count, made):
    return "".join(made(k) for k in range(count))


def contract(name, children):
    return f'<obj href="{name}">{each(children, lambda k: f"""<int name="c{k}"/>""")}</obj>'


def words(name, count):
    return " ".join([name] * count)


def several(name, count):
    """So many words, no two alike."""
    return " ".join(f"{name}{k}" for k in range(count))


def named(count):
    """So many contracts, each with a child of another name."""
    return each(count, lambda k: f'<obj href="c{k}"><int name="x{k}"/></obj>')


def points(count):
    return site("", each(count, lambda k: f'<int href="p{k}" val="0" writable="true" is="obix:WritablePoint"/>'))


def listed(count, more=""):
    """A site with a list of so many words that name nothing, and as many items."""
    return site("", f'<list href="l" of="{words("a", count)}">' + "<obj/>" * count + f"</list>{more}")


def chain(count):
    """A site with contracts, each of which is the one before, and the first of which has a default that can be written."""
    first = '<obj href="c0"><int name="v" href="c0/v" val="0" writable="true"/></obj>'
    return site(first + each(count, lambda k: f'<obj href="c{k + 1}" is="c{k}"/>'))


def logged(count):
    """A site with a history and the alarms of one point, and so many requests that turn its alarm."""
    source = '<ref name="source" href="p"/>'
    rule = f'<obj>{source}<int name="low" val="0"/><int name="high" val="9"/><bool name="needsAck" val="true"/></obj>'
    return (
        site("", '<int href="p" val="0" writable="true"/>'
            f'<obj href="h" is="obix:History">{source}</obj><obj href="r" is="obix:History">{source}<int name="capacity" val="10"/></obj>'
            f'<obj href="a" is="obix:AlarmSubject"><list name="rules">{rule}</list></obj>'),
        batches(count, lambda k: item("Write", "/obix/p", f'<int name="in" val="{20 if k % 2 == 0 else 5}"/>')),
    )


def full(count):
    """A site with so many histories without a capacity of one point, of which none can take one more record."""
    source = '<ref name="source" href="p"/>'
    return site("", '<int href="p" val="0" writable="true"/><obj href="h" is="obix:History"><int name="capacity" val="1000000"/></obj>'
        + each(count, lambda k: f'<obj href="h{k}" is="obix:History">{source}</obj>'))


SITES = {
    "nodes": (20_000, points, 0),
    "a list of n words, n items": (90_000, listed, 0),
    "n contracts, a list of all, n items": (40_000, lambda n: site(each(n, lambda k: f'<obj href="c{k}"/>'), f'<list of="{" ".join(f"c{k}" for k in range(n))}">' + "<obj/>" * n + "</list>"), 0),
    "a chain of contracts": (18_000, chain, 0),
    "contracts with an of of 4n words": (24_000, lambda n: site(f'<list href="c" of="{words("a", 4 * n)}"/>' + each(n, lambda k: f'<list href="d{k}" is="c"/>')), 0),
    "contracts with a text of n bytes": (8_000, lambda n: site(f'<obj href="c" display="{"x" * n}"/>' + each(n, lambda k: f'<obj href="d{k}" is="c"/>')), 0),
    "contracts of 500 parts": (150, lambda n: site(contract("c", 500) + each(n, lambda k: f'<obj href="d{k}" is="c"/>')), 0),
    "a contract of n parts of 500": (100_000, lambda n: site(contract("c", 500) + f'<obj href="d">{"""<obj is="c"/>""" * n}</obj>'), 2),
    "a contract: n words, n items": (36_000, lambda n: site(each(n, lambda k: f'<obj href="c{k}"><int name="n{k}"/></obj>') + f'<obj href="d"><list of="{" ".join(f"c{k}" for k in range(n))}">' + "<obj/>" * n + "</list></obj>"), 2),
    "contracts: n/32 words, n items": (16_000, lambda n: site(f'<list href="c" of="{words("a", n // 32)}"/>' + each(n // 500, lambda k: f'<list href="d{k}" is="c">{"<obj/>" * 500}</list>')), 0),
    "n parts of 500 shown": (100_000, lambda n: site(contract("c", 500), '<obj is="c"/>' * n), 2),
    "words of an is, of 500 parts": (4_000, lambda n: site(contract("c", 500), f'<obj is="{words("c", n)}"/>'), 0),
    "objects over a child": (32_000, lambda n: site(contract("c", 100), '<obj is="c"><int name="c99" val="1"/></obj>' * (n // 40)), 0),
    "n objects over a child of 4n words": (24_000, lambda n: site(f'<obj href="c"><obj name="v" is="{words("a", 4 * n)}"/></obj>', '<obj is="c"><obj name="v"/></obj>' * n), 0),
    "n items over it": (16_000, lambda n: site(f'<obj href="c"><obj name="v" is="{words("a", 4 * n)}"/></obj>', '<list of="c">' + '<obj><obj name="v"/></obj>' * n + "</list>"), 0),
    "n contracts over it": (12_000, lambda n: site(f'<obj href="c"><obj name="v" is="{words("a", 4 * n)}"/></obj>' + each(n, lambda k: f'<obj href="d{k}" is="c"><obj name="v"/></obj>')), 0),
    "objects that nest": (3_000, lambda n: site("", ("<obj>" * 30 + "</obj>" * 30) * n), 0),
    "hrefs with dots": (30_000, lambda n: site("", each(n, lambda k: f'<int href="a/../b/./../p{k}"/>')), 0),
    "an href of n segments": (1_000_000, lambda n: site("", f'<int href="{"a/" * n}{"../" * n}p"/>'), 0),
    "histories of one point": (3_000, lambda n: site("", '<int href="p" val="0"/>' + each(n, lambda k: f'<obj href="h{k}" is="obix:History"><ref name="source" href="p"/></obj>')), 0),
    "records of a history": (10_000, lambda n: site("", '<obj href="h" is="obix:History"><list name="data">' + each(n, lambda k: '<obj><abstime name="timestamp" val="2026-01-05T06:00:00Z"/><int name="value" val="1"/></obj>') + "</list></obj>"), 0),
    "rules of alarms": (12_000, lambda n: site("", each(n, lambda k: f'<int href="p{k}" val="0"/>') + '<obj href="a" is="obix:AlarmSubject"><list name="rules">' + each(n, lambda k: f'<obj><ref name="source" href="p{k}"/><int name="low" val="0"/><int name="high" val="9"/><bool name="needsAck" val="true"/></obj>') + "</list></obj>"), 0),
}


def request(verb, target, body=""):
    head = f"{verb} {target} HTTP/1.1\r\n"
    if body:
        head += f"Content-Type: text/xml\r\nContent-Length: {len(body)}\r\n"
    return (head + "\r\n" + body).encode()


def item(verb, target, given=""):
    return f'<uri is="obix:{verb}" val="{target}">{given}</uri>'


def batches(count, made):
    """So many items, a thousand to a batch."""
    return b"".join(request("POST", "/obix/batch", "<list>" + "".join(made(k) for k in range(first, min(first + 1_000, count))) + "</list>") for first in range(0, count, 1_000))


def asking(part, hrefs, given="", watch=1):
    """A call on a watch, the first one if not said, with these hrefs."""
    return request("POST", f"/obix/watch/{watch}/{part}", '<obj><list name="hrefs">' + "".join(f'<uri val="{href}">{given}</uri>' for href in hrefs) + "</list></obj>")


MAKE = request("POST", "/obix/watchService/make")
REFRESH = request("POST", "/obix/watch/1/pollRefresh")
CHANGES = request("POST", "/obix/watch/1/pollChanges")
LATE = '<obj name="in"><abstime name="start" val="2999-01-01T00:00:00Z"/></obj>'
# the alarms that the first two requests of a run raise
FIRST = '<obj name="in"><abstime name="start" val="2026-01-05T08:00:00Z"/><abstime name="end" val="2026-01-05T08:00:00.001Z"/></obj>'
DEFAULT = '<obj href="d"><int name="v" href="d/v" val="0" writable="true"/></obj>'
NONE = '<obj name="in"><int name="limit" val="0"/></obj>'
HEAD = b"GET /obix/n HTTP/1.1\r\n"


def body(count):
    """An int with a list of so many words and items in it."""
    return f'<int val="8"><list of="{words("a", count)}">' + "<obj/>" * count + "</list></int>"


def parted(kind, given, count, more=""):
    """A site with a node `b` of this kind that has so many children."""
    return site("", f'<{kind} href="b" {given}>{each(count, lambda k: f"""<obj name="c{k}"/>""")}</{kind}>{more}')


def behind(logs, more):
    """More requests behind those that fill the logs."""
    return logs[0], logs[1] + more


STREAMS = {
    "requests": (60_000, lambda n: (None, (HEAD + b"\r\n") * n)),
    "fields in heads": (16_000, lambda n: (None, (HEAD + b"".join(b"a%d: b\r\n" % k for k in range(60)) + b"\r\n") * n)),
    "empty lines before requests": (2_000, lambda n: (None, (b"\r\n" * 2_000 + HEAD + b"\r\n") * n)),
    "a head without an end": (8_000_000, lambda n: (None, HEAD + b"a: " + b"x" * n)),
    "bodies that are a comment": (10, lambda n: (None, (b"PUT /obix/n HTTP/1.1\r\nContent-Length: 1000000\r\n\r\n<!--" + b"x" * 999_996) * n)),
    "long targets": (2_000, lambda n: (None, (b"GET /obix/" + b"%41/" * 1_000 + b" HTTP/1.1\r\n\r\n") * n)),
    "batches": (120_000, lambda n: (None, batches(n, lambda k: item("Read", "/obix/n")))),
    "puts with n words and n items": (60_000, lambda n: (points(1), request("PUT", "/obix/p0", body(n)) * 8)),
    "writePoints with them": (60_000, lambda n: (points(1), request("POST", "/obix/p0/writePoint", body(n).replace("<int", '<obj><int name="value"', 1) + "</obj>") * 8)),
    "batches with them": (60_000, lambda n: (points(1), request("POST", "/obix/batch", "<list>" + item("Write", "/obix/p0", body(n).replace("<int", '<int name="in"', 1)) + "</list>") * 8)),
    "a get of a list of them": (60_000, lambda n: (listed(n), request("GET", "/obix/l"))),
    "polls of that list": (40_000, lambda n: (listed(n).replace(b"<obj/></list>", b'<int href="i" val="0" writable="true"/></list>'), MAKE + asking("add", ["/obix/l"]) + request("PUT", "/obix/i", '<int val="1"/>') + CHANGES + REFRESH)),
    "a write to a default in a chain": (12_000, lambda n: (chain(n), request("PUT", "/obix/c0/v", '<int val="1"/>'))),
    "hrefs that name nothing, added": (10_000, lambda n: (points(1), (MAKE + asking("add", [f"q{k}" for k in range(n)])))),
    "one href, added again": (20_000, lambda n: (points(1), MAKE + asking("add", ["p0"] * n))),
    "items added, written and polled": (1_000, lambda n: (points(2_000), (MAKE + asking("add", [f"p{k}" for k in range(n)]) + batches(n, lambda k: item("Write", f"/obix/p{k}", '<int name="in" val="1"/>')) + CHANGES + REFRESH) * 1)),
    "hrefs removed, of 2,000 items": (15_000, lambda n: (points(2_000), MAKE + asking("add", [f"p{k}" for k in range(2_000)]) + asking("remove", [f"q{k}" for k in range(n)]))),
    "hrefs of one node, added": (4_000, lambda n: (points(100), MAKE + asking("add", [f"//h{k}/obix/p0" for k in range(n)]))),
    "100 calls of a root of n points": (2_000, lambda n: (points(n), batches(100, lambda k: item("Invoke", "/obix/")))),
    "100 writes to a root of n points": (2_000, lambda n: (points(n), batches(100, lambda k: item("Write", "/obix/", '<int name="in" val="1"/>')))),
    "writes above the max, n children": (4_000, lambda n: (parted("int", 'val="1" max="9" writable="true"', n), batches(100, lambda k: item("Write", "/obix/b", '<int name="in" val="10"/>')))),
    "writePoints above it, n children": (4_000, lambda n: (parted("int", 'val="1" max="9" is="obix:WritablePoint" writable="true"', n), batches(100, lambda k: item("Invoke", "/obix/b/writePoint", '<obj name="in"><int name="value" val="10"/></obj>')))),
    "writes to an enum, a range of n": (4_000, lambda n: (parted("list", 'is="obix:Range"', n, '<enum href="e" val="c0" range="b" writable="true"/>'), batches(100, lambda k: item("Write", "/obix/e", f'<enum name="in" val="{"x" if k % 2 else "c0"}"/>')))),
    "hrefs without room, of 100 children": (4_200, lambda n: (parted("obj", "", 100), MAKE + asking("add", [f"//h{k}/obix/b" for k in range(n)]))),
    "20 writes to a default, n contracts": (16_000, lambda n: (site(DEFAULT + each(n, lambda k: contract(f"c{k}", 1))), batches(20, lambda k: item("Write", "/obix/d/v", f'<int name="in" val="{k + 1}"/>')))),
    "1,000 writes to a default, n contracts": (16_000, lambda n: (site(DEFAULT + each(n, lambda k: contract(f"c{k}", 1))), batches(1_000, lambda k: item("Write", "/obix/d/v", f'<int name="in" val="{k + 1}"/>')))),
    "1,000 of them, n contracts on it": (500, lambda n: (site(DEFAULT + each(n, lambda k: f'<obj href="c{k}" is="d"><int name="x"/></obj>')), batches(1_000, lambda k: item("Write", "/obix/d/v", f'<int name="in" val="{k + 1}"/>')))),
    "1,000 of them, n objects": (40_000, lambda n: (site(DEFAULT, each(n, lambda k: f'<obj name="p{k}" is="d"/>')), batches(1_000, lambda k: item("Write", "/obix/d/v", f'<int name="in" val="{k + 1}"/>')))),
    "1,000 of them, n lists of ten words": (300, lambda n: (site(DEFAULT, each(n, lambda k: f'<list name="p{k}" of="a b c d e f g h i j"><obj/></list>')), batches(1_000, lambda k: item("Write", "/obix/d/v", f'<int name="in" val="{k + 1}"/>')))),
    "100 reads in a list of n words": (2_000, lambda n: (site("", f'<list of="{words("a", n)}"><int href="i" val="1"/></list>'), batches(100, lambda k: item("Read", "/obix/i")))),
    "reads of n items, an inherited of": (8_000, lambda n: (site(f'<list href="c" of="{words("a", n)}"/>', '<list is="c">' + each(n, lambda k: f'<int href="i{k}" val="1"/>') + "</list>"), batches(n, lambda k: item("Read", f"/obix/i{k}")))),
    "writes to n items of n words": (2_000, lambda n: (site("", f'<list of="{words("a", n)}">' + each(n, lambda k: f'<int href="i{k}" val="1" writable="true"/>') + "</list>"), batches(n, lambda k: item("Write", f"/obix/i{k}", '<int name="in" val="2"/>')))),
    "n/40 of them behind a default": (20_000, lambda n: (site(DEFAULT, f'<list of="{words("a", n)}">' + each(n // 40, lambda k: f'<int href="i{k}" val="1" writable="true"/>') + "</list>"), batches(n // 40, lambda k: item("Write", f"/obix/i{k}" if k else "/obix/d/v", '<int name="in" val="2"/>')))),
    "reads of n children, an is of n": (24_000, lambda n: (site("", f'<obj is="{words("a", n)}">' + each(n, lambda k: f'<int name="i{k}" href="i{k}" val="1"/>') + "</obj>"), batches(n, lambda k: item("Read", f"/obix/i{k}")))),
    "refused writes to a node of n words": (4_000, lambda n: (site("", f'<int href="i" val="1" is="{words("a", n)}"/>'), batches(n, lambda k: item("Write", "/obix/i", '<int name="in" val="2"/>')))),
    "refused writes, n contracts of names": (2_000, lambda n: (site(named(n), f'<int href="i" val="1" is="{several("c", n)}"/>'), batches(n, lambda k: item("Write", "/obix/i", '<int name="in" val="2"/>')))),
    "reads of n children under n such": (2_000, lambda n: (site(named(n), f'<obj is="{several("c", n)}">' + each(n, lambda k: f'<int name="i{k}" href="i{k}" val="1"/>') + "</obj>"), batches(n, lambda k: item("Read", f"/obix/i{k}")))),
    "reads of n children of such an item": (2_000, lambda n: (site(named(n), f'<list of="{several("c", n)}"><obj>' + each(n, lambda k: f'<int name="i{k}" href="i{k}" val="1"/>') + "</obj></list>"), batches(n, lambda k: item("Read", f"/obix/i{k}")))),
    "an enum's range of n words": (4_000, lambda n: (site("", f'<enum href="e" range="r" val="a" writable="true"/><obj href="r" is="{words("a", n)}"/>'), batches(n, lambda k: item("Write", "/obix/e", '<enum name="in" val="b"/>')))),
    "an enum's range of n children": (8_000, lambda n: (site("", '<enum href="e" range="r" val="a" writable="true"/><obj href="r">' + each(n, lambda k: f'<obj name="a{k}"/>') + "</obj>"), batches(n, lambda k: item("Write", "/obix/e", f'<enum name="in" val="a{n - 1}"/>')))),
    "n reads of a query, an is of n": (8_000, lambda n: (site("", f'<int href="p" val="0"/><obj href="h" is="obix:History {words("a", n)}"><ref name="source" href="p"/></obj>'), batches(n, lambda k: item("Read", "/obix/h/query")))),
    "a write to a default, n below 28": (30_000, lambda n: (site('<obj href="c"><int name="v" href="c/v" val="0" writable="true"/></obj>', each(28, lambda k: f'<obj href="r{k}">') + '<obj is="c"/>' * n + "</obj>" * 28), request("PUT", "/obix/c/v", '<int val="1"/>'))),
    "dots in an item's href": (100_000, lambda n: (None, batches(1, lambda k: item("Read", "a/" * n + "../" * n + "n")))),
    "writes to logs": (50_000, lambda n: logged(n)),
    "acknowledgements": (10_000, lambda n: behind(logged(n), batches(n // 2, lambda k: item("Invoke", f"/obix/alarm/{k + 1}/ack")))),
    "refused writes, n histories of a point": (10_000, lambda n: (full(n), batches(n, lambda k: item("Write", "/obix/p", f'<int name="in" val="{k + 1}"/>')))),
    "queries of logs that pass nothing": (60_000, lambda n: behind(logged(n), batches(100, lambda k: item("Invoke", ("/obix/h/query", "/obix/r/query", "/obix/a/query")[k % 3], LATE)))),
    "n turns, n/10 queries of no alarm": (40_000, lambda n: behind(logged(n), batches(n // 10, lambda k: item("Invoke", "/obix/a/query", NONE)))),
    "n turns, n/10 queries out of time": (40_000, lambda n: behind(logged(n), batches(n // 10, lambda k: item("Invoke", "/obix/a/query", LATE)))),
    "queries of all records": (20_000, lambda n: behind(logged(n), request("POST", "/obix/h/query", f'<obj><int name="limit" val="{n}"/></obj>') + request("POST", "/obix/a/query", f'<obj><int name="limit" val="{n}"/></obj>'))),
    "feeds that pass nothing": (10_000, lambda n: behind(logged(n), MAKE + asking("add", [f"//h{k}/obix/{'a' if k % 2 else 'h'}/feed" for k in range(50)], LATE) + REFRESH)),
    "n turns, n/20 feeds out of time": (20_000, lambda n: behind(logged(n), MAKE + asking("add", [f"//h{k}/obix/{'a' if k % 2 else 'h'}/feed" for k in range(n // 20)], LATE) + REFRESH * 4)),
    "n turns, 1,000 feeds of the first": (20_000, lambda n: (logged(n)[0], request("PUT", "/obix/p", '<int val="20"/>') + request("PUT", "/obix/p", '<int val="5"/>') + logged(n)[1] + MAKE + asking("add", [f"//h{k}/obix/a/feed" for k in range(1_000)], FIRST) + REFRESH * 4)),
    "events of feeds": (5_000, lambda n: (logged(n)[0], MAKE + asking("add", ["/obix/a/feed", "/obix/h/feed", "/obix/r/feed"]) + logged(n)[1] + CHANGES + REFRESH)),
}


def week(path, entries, more=""):
    """A schedule of a point, with these entries, behind these other children."""
    return f'<obj>{more}<uri name="point" val="{path}"/><list name="entries">{entries}</list></obj>'


def filed(weeks):
    """A file with these schedules."""
    return f'<obj><str name="zone" val="UTC0"/><list name="schedules">{weeks}</list></obj>'.encode()


def entry(place, value):
    """An entry at a time of its own."""
    return f'<obj><int name="day" val="{place % 7 + 1}"/><time name="at" val="{place // 7:02}:00:00"/>{value}</obj>'


VALUE = '<int name="value" val="2"/>'

# the files of `schedule`, each with the site that it is for, and the status
SCHEDULES = {
    "60 entries, a point of n children": (8_000, lambda n: (parted("int", 'val="1" max="9" is="obix:WritablePoint" writable="true"', n), filed(week("/obix/b", each(60, lambda k: entry(k, VALUE))))), 0),
    "too many schedules": (40_000, lambda n: (points(1), filed(each(n, lambda k: week(f"/obix/p{k}", "")))), 2),
    "too many entries": (20_000, lambda n: (points(1), filed(week("/obix/p0", each(n, lambda k: entry(k % 168, VALUE))))), 2),
    "100 schedules behind n children": (20_000, lambda n: (points(100), filed(each(100, lambda k: week(f"/obix/p{k}", entry(0, VALUE), "" if k else "<int/>" * n)))), 0),
}


def spent(words, given, used):
    """User seconds of a run, the most memory that it had in MB, and its status."""
    # by `time`, as a child of this process would begin with the memory that Python has
    timed = ["/usr/bin/prlimit", f"--cpu={SECONDS}", "/usr/bin/time", "-q", "-f", "%M", "-o", used, program, *words]
    null = os.open(os.devnull, os.O_WRONLY)
    source = os.open(given, os.O_RDONLY)
    files = [(os.POSIX_SPAWN_DUP2, source, 0), (os.POSIX_SPAWN_DUP2, null, 1), (os.POSIX_SPAWN_DUP2, null, 2)]
    child = os.posix_spawn(timed[0], timed, os.environ, file_actions=files)
    os.close(source)
    os.close(null)
    _, status, resources = os.wait4(child, 0)
    with open(used) as file:
        return resources.ru_utime, int(file.read()) / 1024, os.waitstatus_to_exitcode(status)


def watching(watches, items, href):
    """So many watches with a lease of a day, each with so many items of one href, asked by as many hosts."""
    hrefs = [f"//h{k}{href}" for k in range(items)]
    lease = '<reltime val="PT86400S"/>'
    # (a body has at most 1 MiB)
    parts = [hrefs[at:at + 512] for at in range(0, items, 512)]
    return b"".join(MAKE + request("PUT", f"/obix/watch/{w}/lease", lease) + b"".join(asking("add", it, "", w) for it in parts) for w in range(1, watches + 1))


# What is asked beside watches: the site, what makes the watches, what is asked then, and the most that it may cost beside them, as
# a multiple of what it costs without them. All watches together have at most 200,000 items, one 2,048.
WRITES = batches(20_000, lambda k: item("Write", "/obix/p", f'<int name="in" val="{k + 1}"/>'))
ALARMS = batches(2_000, lambda k: item("Write", "/obix/p", f'<int name="in" val="{20 if k % 2 == 0 else 5}"/>'))
BESIDE = {
    "20,000 writes, 97 watches of a feed": (logged(0)[0], watching(97, 2_048, "/obix/r/feed"), WRITES, 2.0),
    "20,000 writes, 1,000 watches of it": (logged(0)[0], watching(1_000, 200, "/obix/r/feed"), WRITES, 2.0),
    "2,000 alarms, 97 watches of their feed": (logged(0)[0], watching(97, 2_048, "/obix/a/feed"), ALARMS, 2.0),
}

# Watches at their bounds: what makes them, and the most memory that they may take beside the site's, in MB: what they took when
# measured (69, 38 and 102), and some room. An item keeps its path, and its href twice.
LONG = "./" * 492 + "p"
BOUNDS = {
    "200,000 items of 97 watches": (logged(0)[0], watching(97, 2_048, "/obix/p"), 80),
    "16 MiB of hrefs": (logged(0)[0], watching(8, 2_048, "/obix/" + LONG), 50),
    "both, in 1,000 watches": (logged(0)[0], watching(1_000, 200, "/obix/" + "./" * 35 + "p"), 115),
}


def ratio(once, twice, least):
    return twice / once if once >= least else math.nan


def tried(folder, name, made, counts, words):
    """The sizes of a form at both counts, and of each the least time and memory of the runs, and the statuses. Where one grows too
    fast there are more runs, as a busy machine makes some slow."""
    sizes = []
    for place, count in enumerate(counts):
        opened, given = made(count)
        sizes.append(len(opened or b"") + len(given))
        for what, data in (("site", opened), ("in", given)):
            if data is not None:
                with open(f"{folder}/{what}{place}", "wb") as file:
                    file.write(data)
    results = [[], []]
    for _ in range(3):
        for place in (0, 1):
            opened = point if made(1)[0] is None else f"{folder}/site{place}"
            asked = f"{folder}/in{place}"
            said = {"check": [asked], "stdio": [opened, *AT], "schedule": [opened, asked, *AT]}[words[0]]
            given = os.devnull if words == ["schedule"] else asked
            results[place] += [spent([*words, *said], given, f"{folder}/used") for _ in range(runs)]
        least = [(min(it[0] for it in own), min(it[1] for it in own), {it[2] for it in own}) for own in results]
        grows = ratio(least[0][0], least[1][0], 0.05), ratio(least[0][1], least[1][1], 16)
        if not any(it > MOST for it in grows) or any(len(own[2]) > 1 for own in least):
            break
    return sizes, least, grows


def least_of(folder, opened, given):
    """The least user seconds of the runs of a site that is asked this, the least memory, and the statuses."""
    for what, data in (("site", opened), ("in", given)):
        with open(f"{folder}/{what}", "wb") as file:
            file.write(data)
    own = [spent(["stdio", f"{folder}/site", *AT], f"{folder}/in", f"{folder}/used") for _ in range(runs)]
    return min(it[0] for it in own), min(it[1] for it in own), {it[2] for it in own}


def beside(folder):
    """What requests cost beside watches, and what watches take at their bounds. How many do so otherwise than they may."""
    bad = 0
    for name, (opened, watches, asked, most) in BESIDE.items():
        if part not in name:
            continue
        alone, made, both = (least_of(folder, opened, given) for given in (asked, watches, watches + asked))
        times = ratio(alone[0], both[0] - made[0], 0.05)
        wrong = times > most or any(it[2] != {0} for it in (alone, made, both))
        bad += wrong
        print(f"{name:40} alone {alone[0]:6.2f} s, beside the watches {both[0] - made[0]:6.2f} s: {times:5.2f} times, at most {most}{' BAD' if wrong else ''}", flush=True)
    for name, (opened, watches, most) in BOUNDS.items():
        if part not in name:
            continue
        bare, made = least_of(folder, opened, b""), least_of(folder, opened, watches)
        wrong = made[1] - bare[1] > most or made[2] != {0}
        bad += wrong
        print(f"{name:40} {made[0]:6.2f} s, {made[1] - bare[1]:5.0f} MB, at most {most}{' BAD' if wrong else ''}", flush=True)
    return bad


def forms():
    """Each form: its name, how many, the site and the input of a count, the words of the program, and the statuses that it may end in."""
    for name, (count, made) in DOCUMENTS.items():
        yield name, count, lambda n, made=made: (b"", made(n)), ["check"], {0, 2}
    for name, (count, made, status) in SITES.items():
        yield name, count, lambda n, made=made: (made(n), b""), ["stdio"], {status}
    for name, (count, made) in STREAMS.items():
        yield name, count, made, ["stdio"], {0, 5, 6}
    for name, (count, made, status) in SCHEDULES.items():
        yield name, count, made, ["schedule"], {status}


def main():
    bad = 0
    resource.setrlimit(resource.RLIMIT_AS, (MEMORY, MEMORY))
    print(f"{'form':36} {'MB':>6} {'user s':>7} {'twice':>7} {'ratio':>6} {'MB':>6} {'twice':>7} {'ratio':>6} status")
    with tempfile.TemporaryDirectory() as folder:
        for name, count, made, words, allowed in forms():
            if part not in name:
                continue
            sizes, ((once, held, status), (twice, more, also)), grows = tried(folder, name, made, (count, count * 2), words)
            wrong = any(it > MOST for it in grows) or not (status == also and len(status) == 1 and status <= allowed)
            bad += wrong
            told = ",".join(str(it) for it in sorted(status | also))
            print(f"{name:36} {sizes[0] / 1e6:6.1f} {once:7.2f} {twice:7.2f} {grows[0]:6.2f} {held:6.0f} {more:7.0f} {grows[1]:6.2f} {told}{' BAD' if wrong else ''}", flush=True)
        bad += beside(folder)
    print(f"{bad} forms grow faster than {MOST} or end otherwise, or cost more than they may" if bad else f"none grows faster than {MOST}")
    sys.exit(bad > 0)


main()
