"""Where a RECORD of `obix keep` doesn't fit a site file: the entry that gets another reply, both replies, and what differs.

Which entry it is the program says, of a copy of RECORD. The reply that the site gives now is the program's too: the requests of all
entries up to that one are made again by `obix record`, a millisecond apart, and the moments of RECORD are put in their places.
"""
import datetime
import re
import tempfile
from pathlib import Path

from lint.asking import Trouble
from lint.parts import parts_of
from lint.refusals import a, meant, short

HEAD = re.compile(rb"([0-9]+) (GET|PUT|POST) ([0-9]+) ([0-9]+) ([0-9]+|-)\n")
MOMENT = re.compile(rb"[0-9]{4}-[0-9]{2}-[0-9]{2}T[0-9:]{8}(?:\.[0-9]{1,3})?Z")
MOST = 5   # differences that are said


class Entry:
    """A request, its moment in milliseconds from 1970, and the reply that stands with it."""

    def __init__(self, moment, verb, target, body, reply):
        self.moment, self.verb, self.target, self.body, self.reply = moment, verb, target, body, reply

    def __str__(self):
        body = f" {short_text(self.body)}" if self.body else ""
        return f"{written(self.moment).decode()}: {self.verb} {self.target.decode(errors='replace')}{body}"


def read(data):
    """The moment of the opening, and the whole entries: docs/PROFILE.md, "Records of runs" and "A site that is kept". What hasn't the
    first two lines has no entries."""
    opening = re.match(rb"obix-record 1\nboot ([0-9]+)\n", data)
    if not opening:
        return None, []
    at, entries = opening.end(), []
    while (head := HEAD.match(data, at)) is not None:
        sizes = [0 if it == b"-" else int(it) for it in head.groups()[2:]]
        places = [head.end(), head.end() + sizes[0], head.end() + sum(sizes[:2]), head.end() + sum(sizes)]
        if places[3] > len(data):
            break
        texts = [data[one:other] for one, other in zip(places, places[1:])]
        entries.append(Entry(int(head[1]), head[2].decode(), *texts))
        if data[places[3]:places[3] + 1] != b"\n":
            break   # what stands here is the end of the last entry, and what a stop leaves
        at = places[3] + 1
    return int(opening[1]), entries


def written(moment):
    """A moment as an abstime has it."""
    seconds, rest = divmod(moment, 1000)
    day = datetime.datetime(1970, 1, 1) + datetime.timedelta(seconds=seconds)
    return f"{day.isoformat()}{f'.{rest:03}'.rstrip('0') if rest else ''}Z".encode()


def short_text(text, most=600):
    text = "".join(it if it.isprintable() else "\ufffd" for it in text.decode(errors="replace"))
    return text if len(text) <= most else f"{text[:most]}.. ({len(text):,} characters)"


def judged(data, site, program):
    """What `obix compact` says of a copy: how many entries there are, or why it is refused."""
    with tempfile.TemporaryDirectory(prefix="site_lint.") as room:
        copy, new = Path(room, "record"), Path(room, "new")
        copy.write_bytes(data)
        out, cause = program.run("compact", site, str(copy), str(new), may=(13,))
    return out.decode().split(" of ")[-1].strip(), cause


def replies_now(entries, site, program):
    """The numbers of the requests among these entries, each with the reply that the site of a file gives to it after all before it."""
    asked = [(number, it) for number, it in enumerate(entries) if it.verb != "GET"]   # of `keep` these are numbers of watches
    requests = (b"%b %b HTTP/1.1\r\nContent-Type: text/xml\r\nContent-Length: %d\r\n\r\n%b"
                % (it.verb.encode(), it.target, len(it.body), it.body) for _, it in asked)
    first = asked[0][1].moment
    out = program.run("record", site, "--at", str(first), "--tick", "1", requests=b"".join(requests))[0]
    replies = [it.reply for it in read(out)[1]]
    if len(replies) != len(asked):
        raise Trouble(f"{program.path} record: {len(asked)} requests of the record got {len(replies)} replies")
    moments, latest = {}, first
    for place, (_, it) in enumerate(asked):
        latest = max(latest, it.moment)   # the site's time never falls
        moments[written(first + place)] = written(latest)
    return [(number, MOMENT.sub(lambda found: moments.get(found[0], found[0]), it)) for (number, _), it in zip(asked, replies)]


def refused_batches(entries, site, program):
    """The numbers of the batches of which the site refuses an item now, and why: their answers aren't kept, so no entry tells."""
    batches = {number for number, it in enumerate(entries) if it.body.startswith(b"<list")}
    for number, reply in replies_now(entries, site, program) if batches else ():
        objects = parts_of(reply)[0] if number in batches else []
        err = next((it for it in objects if it.kind == "err" and it.parent in (None, objects[0])), None)
        if err is not None:
            yield number, reason(err)


# ---- what differs, in words


def foreign(entry):
    """Why an entry is none that `keep` writes; None where it is one."""
    what = "a read" if entry.verb == "GET" else "a batch with its answer" if entry.body.startswith(b"<list") else None
    return what and f"it is {what}, and `keep` writes none: the record is one of `obix record`, and `keep` goes on with it where it has" \
        " single writes alone"


def point_of(entry):
    """The path of the point that an entry writes, or is about."""
    return entry.target.decode(errors="replace").removesuffix("/writePoint")


def difference(entry, now, site, shown):
    """What differs between the reply of an entry and the one that the site gives now. `shown` is the text of what the site shows at
    the point's path, if it shows something."""
    path, objects = point_of(entry), parts_of(entry.reply)[0][:1] + parts_of(now)[0][:1]
    if len(objects) < 2:
        return "what stands in the record is no object"
    was, it = objects
    why = reason(it if it.kind == "err" else was)
    if it.kind == "err" and was.kind != "err":
        if re.search("/alarm/[0-9]+/ack$", path):
            return f"there is no such alarm now, or it needs no acknowledgement ({why}): a rule of alarms is another"
        if shown is None and why == "no such object":
            return f"the site shows nothing at {path} now: was the point renamed, or taken away?{meant(path, list(site.nodes), 0.8)}"
        more = compared(was, parts_of(shown.encode())[0][0], {"val", "null", "status", "xmlns"}) if shown is not None else []
        return "; ".join([f"the site refuses it now ({why})", *several(more)])
    if was.kind == "err" and it.kind != "err":
        return f"it was refused then ({why}), and is done now"
    found = compared(was, it, set())
    if len(found) == 1 and found[0].startswith("status: ") and re.search("alarm|unacked", found[0], re.I):
        return f"{found[0]} (a rule of alarms is another)"
    return "; ".join(several(found)) or "its answer is another, and this tool sees no attribute or child that differs"


def reason(err):
    return err.has.get("display", err.has.get("is", "an err"))


def several(texts):
    return texts if len(texts) <= MOST else [*texts[:MOST], f"{len(texts) - MOST} more"]


def compared(was, now, but, at=""):
    """The attributes and children in which two objects differ, but for some attributes."""
    found, place = [], f" of {at}" if at else ""
    if was.kind != now.kind:
        found.append(f"{at or 'the object'}: {a(was.kind)} then, {a(now.kind)} now")
    for name in [*was.has, *(it for it in now.has if it not in was.has)]:
        old, new = was.has.get(name), now.has.get(name)
        if old != new and name not in but:
            shown = [f'"{short(it)}"' if it is not None else "none" for it in (old, new)]
            found.append(f"{name}{place}: {shown[0]} then, {shown[1]} now")
    names = [it.name for it in was.children if it.name] + [it.name for it in now.children if it.name and was.child(it.name) is None]
    for name in names:
        old, new = was.child(name), now.child(name)
        path = f"{at} / {name}" if at else name
        if old is None or new is None:
            found.append(f"{path}: {'gone' if new is None else 'new'} now")
        else:
            found += compared(old, new, but, path)
    return found
