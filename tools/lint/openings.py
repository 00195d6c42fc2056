"""The places and the causes of what keeps a document from opening a site: RootHref, Href, Contract, PathTwice, Rule, Size.

Each function gives findings: a place in bytes, and what is to say of it; the first is the refusal, the others are notes.
"""
import re
from datetime import date
from decimal import Decimal

from lint.refusals import a

LIKE = 'such as href="http://plant/obix/"'
OTHER = 'it breaks a rule of its role: docs/PROFILE.md, "The site file", has them'
COMPUTED = {"about": "About", "batch": "the batch", "watchService": "the watch service", "watchService/make": "its op make"}
MADE = {"writePoint": "obix:WritablePoint", "query": "obix:History or obix:AlarmSubject", "feed": "obix:History or obix:AlarmSubject"}


def of_root(root):
    text = root.has.get("href", "")
    if root.kind != "obj":
        return [(root.at, f"the root is {a(root.kind)}, and has to be an obj")]
    if "href" not in root.has:
        return [(root.at, f"the root needs the site's URL, {LIKE}")]
    causes = (
        ("no absolute URL", not re.match(r"[A-Za-z][A-Za-z0-9+.-]*:", text)),
        ("neither http nor https", not re.match("(?i)https?:", text)),
        ("a URL with a fragment", "#" in text),
        ("a URL with a query", "?" in text),
        ("a URL whose path ends with no slash", not text.endswith("/")),
    )
    why = next((it for it, holds in causes if holds), "no URL")
    return [(root.place("href"), f"the root's href is {why}: it has to be one {LIKE}")]


def of_href(site, part):
    text = part.has["href"]
    path = site.paths.get(text)
    if "#" in text:
        why = "has a fragment"
    elif path and "?" in path:
        why = "has a query"
    else:
        why = f"leads to another scheme, host or port than the root's {site.root.has['href']}, or is no URL"
    return [(part.place("href"), f"{part}: this href {why}")]


def of_contract(site, cause, path):
    box = site.root.child("contracts")
    named = [it for it in (box.children if box else []) if it.path == path]
    first = named[0]
    if cause == "Twice":
        return [(named[1].place("href"), f"a second contract of the path {path}"), (first.place("href"), "the first one")]
    if cause == "Large":
        return [(first.at, "this contract has more than 512 parts with all that it inherits")]
    naming = [(it, name) for it in site.parts if it.inside for name in ("is", "of") if path in site.words(it, name)]
    uses, name = naming[0]
    return [(uses.place(name), f"{uses}: {name} names the contract {path}, which stands only below; move it up, before what names it"
             if uses.number < first.number else f"{uses}: {name} names the contract {path} inside itself"), (first.at, "the contract")]


def of_path(site, path):
    """Two nodes, a node and what the server makes for all sites, or a node and what a role makes."""
    nodes = [it for it in site.parts if it.path == path and not site.is_dropped(it)]
    root, tail = site.paths[""], path.rpartition("/")[2]
    behind = path[len(root):] if path.startswith(root) else None
    if behind in COMPUTED or (behind or "").startswith(("watch/", "alarm/")):
        what = COMPUTED.get(behind) or ("watches" if behind.startswith("watch/") else "alarms")
        if nodes:
            return [(nodes[0].place("href"), f"{nodes[0]}: the path {path} is that of {what}, which the server makes")]
    makers = [it for it in site.parts if it.path and tail in MADE and path == it.below(tail) and not site.is_dropped(it)
              and any(site.has_role(it, word) and tail in site.DERIVED[word] for word in site.DERIVED)]
    places = [(it.place("href"), f"{it}: the path {path} is taken twice") for it in nodes]
    made = [(it.place("is"), f"{it}: as {MADE[tail]} it has {tail} at {path}, which the server makes") for it in makers]
    if len(makers) == 1 and not nodes:
        return [(makers[0].place("is"), f"{makers[0]}: it is both obix:History and obix:AlarmSubject, which would make {path} twice")]
    found = places[1:] + made + places[:1] if len(places) > 1 else places + made
    return [found[0]] + [(at, f"{text.partition(': ')[0]}: the other one" if "taken twice" in text else text) for at, text in found[1:]]


def of_rule(site, part):
    """Which rule of the roles a part breaks: a rule of alarms, a record, a history, or a second alarm subject."""
    up = part.parent
    if up is not None and site.is_taken(up) and up.name == "rules":
        at, why = rule(site, part)
    elif up is not None and site.is_taken(up) and up.name == "data":
        at, why = record(part)
    else:
        at, why = history(site, part)
    return [(at, f"{part}: {why or OTHER}")]


def has_value(part):
    return "val" in part.has and "null" not in part.has


def source_of(site, part, kinds):
    """The ref `source` of a part, the path that it leads to, and the node there of one of these kinds."""
    ref = part.child("source", "ref")
    path = site.paths.get(ref.has.get("href")) if ref else None
    return ref, path, site.node(path, kinds) if path else None


def no_source(site, ref, path, kinds):
    if "href" not in ref.has:
        return ref.at, "its source has no href"
    there = [it for it in site.parts if it.path and it.path == path]
    if not there:
        return ref.place("href"), f"its source leads to {path or ref.has['href']}, where the file has no object"
    if there[0].inside:
        return ref.place("href"), f"its source leads to {path}, which is in the contracts"
    if there[0].kind not in kinds:
        return ref.place("href"), f"its source leads to {path}, which is {a(there[0].kind)} and not one of {', '.join(kinds)}"
    return ref.place("href"), f"its source leads to {path}, which gives way to what the server makes"


def rule(site, part):
    ref, path, source = source_of(site, part, ["int", "real"])
    if part.kind != "obj":
        return part.at, f"a rule is an obj, and this is {a(part.kind)}"
    if ref is None:
        return part.at, "the rule has no ref named source"
    if source is None:
        return no_source(site, ref, path, ["int", "real"])
    for name in ("low", "high"):
        limit = part.child(name)
        if limit is None:
            return part.at, f"the rule has no {source.kind} named {name}"
        if limit.kind != source.kind:
            return limit.at, f"{name} is {a(limit.kind)}, and the source {path} {a(source.kind)}: both have to be of one kind"
        if not has_value(limit):
            return limit.at, f"{name} has no val"
    low, high = part.child("low"), part.child("high")
    if Decimal(low.has["val"]) > Decimal(high.has["val"]):
        return low.place("val"), f"low {low.has['val']} is above high {high.has['val']}"
    needs = part.child("needsAck")
    if needs is None or needs.kind != "bool" or not has_value(needs):
        return needs.at if needs else part.at, "the rule needs a bool named needsAck with a val"
    earlier = (it.child("source", "ref") for it in part.parent.children[:part.nth - 1])
    if any(it is not None and site.paths.get(it.has.get("href")) == path for it in earlier):
        return ref.place("href"), f"an earlier rule has the source {path}, and no two have one"
    return part.at, None


def record(part):
    time, value = part.child("timestamp"), part.child("value")
    if part.kind != "obj":
        return part.at, f"a record is an obj, and this is {a(part.kind)}"
    if time is None or time.kind != "abstime" or not has_value(time):
        return time.at if time else part.at, "the record needs an abstime named timestamp with a val"
    if value is None or value.kind in ("obj", "list", "op", "feed", "ref", "err"):
        return value.at if value else part.at, "the record needs a child named value of a kind that has values"
    before = part.parent.children[part.nth - 2] if part.nth > 1 else None
    if before and instant(time.has["val"]) < instant(before.child("timestamp").has["val"]):
        return time.place("val"), "this record is earlier than the one before it: records stand in the order of their times"
    if instant(time.has["val"]) > instant("9999-12-31T23:59:59.999Z"):
        return time.place("val"), "this record is later than 9999-12-31T23:59:59.999Z"
    return part.at, None


def instant(text):
    """Seconds and billionths of a canonical abstime, for comparing."""
    found = re.match(r"(\d+-\d+-\d+)T(\d+):(\d+):(\d+)(?:\.(\d+))?(?:Z|([+-])(\d+):(\d+))$", text)
    hours, minutes, seconds = (int(it) for it in found.groups()[1:4])
    offset = (int(found[7]) * 60 + int(found[8])) * (-1 if found[6] == "-" else 1) if found[6] else 0
    days = date.fromisoformat(found[1]).toordinal()
    return days * 86400 + (hours * 60 + minutes - offset) * 60 + seconds, int((found[5] or "0").ljust(9, "0"))


def history(site, part):
    ref, path, source = source_of(site, part, site.VALUES)
    capacity = part.child("capacity")
    if site.has_role(part, "obix:History"):
        if ref is not None and source is None:
            return no_source(site, ref, path, site.VALUES)
        if capacity is not None and (capacity.kind != "int" or not has_value(capacity) or not 1 <= int(capacity.has["val"]) <= 1_000_000):
            return capacity.at, "capacity is an int from 1 to 1,000,000"
        histories = [it for it in site.parts[:part.number + 1] if site.has_role(it, "obix:History") and not site.is_dropped(it)]
        if sum(map(kept, histories)) > 1_000_000:
            return part.at, ("with this history they keep more than 1,000,000 records together: the capacities of all, and the records"
                             " of those without one")
    if site.has_role(part, "obix:AlarmSubject") and any(site.has_role(it, "obix:AlarmSubject") for it in site.parts[:part.number]):
        return part.at, "a second alarm subject: a site has one at most"
    return part.at, None


def kept(part):
    """How many records a history counts for."""
    capacity, data = part.child("capacity", "int"), part.child("data", "list")
    return int(capacity.has["val"]) if capacity else len(data.children) if data else 0
