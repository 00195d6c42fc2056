"""The places and the causes of what keeps a document from being a config of `obix super`, and what in one is likely a slip.

Each function gives findings: a place in bytes, and what is to say of it; which part offends is said by the program.
"""
import re
from urllib.parse import urlsplit

from lint.parts import parts_of
from lint.refusals import a, meant, short

OTHER = 'it breaks a rule of these files: docs/PROFILE.md, "Several servers as one tree", has them'
LIKE = "http://127.0.0.1:8080/obix/"
TOGETHER = 200   # hrefs that are asked about at once


def of_config(parts, number):
    """The finding of the part with this number, of a document that is no config: by where the part stands."""
    part, depth = parts[number], 0
    it = part
    while it.parent is not None:
        it, depth = it.parent, depth + 1
    if depth == 0:
        at, why = of_root(part)
    elif depth == 1:
        at, why = of_upstream(part)
    elif depth == 2:
        at, why = of_url(part) if part.name == "url" else of_hrefs(part)
    else:
        at, why = of_one(part)
    return [(at, f"{part}: {why or OTHER}")]


def of_root(part):
    if part.kind != "list":
        return part.at, f"this is {a(part.kind)}, and has to be a list of upstreams, the servers that are followed"
    return part.at, f"it has {len(part.children):,} objects, and may have 1 to 64"


def of_upstream(part):
    if part.kind != "obj":
        return part.at, f"an upstream is an obj, and this is {a(part.kind)}"
    if part.name is None or not re.fullmatch("[a-z0-9]{1,32}", part.name):
        return part.place("name"), "an upstream has a name of 1 to 32 letters a to z and digits, since it is a part of the tree's paths"
    for name, what in (("url", "no uri named url"), ("hrefs", "no list named hrefs")):
        if part.child(name) is None:
            return part.at, f"it has {what}{meant(name, [it.name for it in part.children if it.name])}"
    return part.at, None


def of_url(part):
    text = part.has.get("val", "")
    if part.kind != "uri" or not text or "null" in part.has:
        return part.at, f"the url is a uri whose val is the server's lobby, such as {LIKE}"
    causes = (
        ("https, which isn't spoken to servers that are followed", re.match("(?i)https:", text)),
        ("no absolute http URL", not re.match("(?i)http:", text)),
        ("a URL with a fragment", "#" in text),
    )
    return part.place("val"), f"the url is {next((it for it, holds in causes if holds), 'no URL')}: it has to be one such as {LIKE}"


def of_hrefs(part):
    if part.kind != "list":
        return part.at, f"{part.name} is {a(part.kind)}, and has to be a list"
    return part.at, f"it has {len(part.children):,} objects, and may have 1 to 2,048"


def of_one(part):
    text = part.has.get("val", "")
    if part.kind != "uri" or "null" in part.has:
        return part.at, f"what is followed is a uri whose val is an href, and this is {a(part.kind)}"
    if not 1 <= len(text.encode()) <= 1024:
        return part.place("val"), f"an href has 1 to 1,024 bytes, and this has {len(text.encode()):,}"
    return part.place("val"), f"{short(text)} stands twice in this list"


def slips(parts, program):
    """What in a config is likely a slip: seen without asking the servers."""
    found, urls = [], {}
    for part in parts[0].children:
        url = part.child("url")
        text = url.has["val"]
        if urlsplit(text).path[-1:] not in ("", "/"):
            found.append((url.place("val"), f"{part}: the url ends with no slash: that of a lobby does, as {LIKE}, and hrefs without a"
                          " slash in front are resolved against it"))
        if urls.setdefault(text, part) is not part:
            found.append((url.place("val"), f"{part}: the url is that of {urls[text]} too: the server is followed twice"))
        items = part.child("hrefs").children
        paths = program.resolve(base(text), [it.has["val"] for it in items])
        found += [(it.place("val"), f"{part}: the href {short(it.has['val'])} isn't one of the url's server: what is written to it isn't"
                   " sent on") for it in items if paths[it.has["val"]] is None]
    return sorted(found, key=lambda it: it[0])


def base(url):
    """A URL that hrefs resolve against as against this one, and that a site's root may have."""
    text = url.partition("?")[0]
    return text + "/" if not urlsplit(text).path else text[:text.rindex("/") + 1]


def answers(parts, program):
    """What the servers of a config say of it: each is asked by `obix watch`, which makes a watch and deletes it."""
    found = []
    for part in parts[0].children:
        url, items = part.child("url"), part.child("hrefs").children
        for first in range(0, len(items), TOGETHER):
            texts = {it.has["val"]: it for it in items[first:first + TOGETHER]}
            out, cause = program.run("watch", "--polls=0", "--", url.has["val"], *texts, may=(7, 8))
            if cause is not None:
                found.append((url.place("val"), f"{part}: {words(cause)}: it will be shown as down"))
                break
            for it in gone(out):
                if it.has.get("href") in texts:
                    found.append((texts[it.has["href"]].place("val"), f"{part}: the server refuses {short(it.has['href'])}"
                                  f" ({it.has.get('display', 'an err')}): it will be left out"))
    return sorted(found, key=lambda it: it[0])


def gone(out):
    """The errs among what a watch holds after the addition."""
    lines = out.partition(b"# add\n")[2].partition(b"\n# ")[0].split(b"\n")
    return [parts_of(line)[0][0] for line in lines if line.startswith(b"<err")]


def words(cause):
    """What a server said at the url that is no lobby of it."""
    if cause == "link fault":
        return "no server answers at this url"
    told = cause.removeprefix("peer: ")
    if told.startswith("err") and "no such object" in told:
        return "the server has no object at this url"
    if told.startswith(("status", "document", "frame")):
        return f"what answers at this url is no oBIX server ({told})"
    return f"what answers at this url is no lobby ({told})"

