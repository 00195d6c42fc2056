"""The places and the causes of what keeps a document from being a file of weekly schedules for a site.

Each function gives a place in bytes, and what is to say of it; which part offends is told by the program.
"""
from lint.openings import has_value
from lint.refusals import a

OTHER = 'it breaks a rule of schedule files: docs/PROFILE.md, "The schedule file", has them'
ZONE = "a rule text such as CET-1CEST,M3.5.0,M10.5.0/3, or UTC0"
DAY_MS = 86_400_000


def of_schedule(parts, number, program, site):
    """The findings of the part with this number, of a document that is no file of schedules for the site of a file."""
    part = parts[number]
    at, why = find(part, Points(program, site))
    return [(at, f"{part}: {why or OTHER}")]


class Points:
    """What a site shows at the paths that schedules name: asked of the program."""

    def __init__(self, program, site):
        self.program, self.site = program, site

    def at(self, path):
        """The object at a path, as text; None where it isn't a path or nothing stands there."""
        if not path.startswith("/") or not path.isprintable() or " " in path:
            return None
        text = self.program.ask(self.site, [path])[0].decode(errors="replace")
        return None if text.startswith("<err") else text


def find(part, points):
    """By where a part stands: the root, its zone and its list, a schedule, its point and its entries, an entry and what it has."""
    round_it = []
    while (up := (round_it[-1] if round_it else part).parent) is not None:
        round_it.append(up)
    depth = len(round_it)
    if depth == 0:
        return of_root(part)
    if depth == 1:
        return of_zone(part) if part.name == "zone" else of_list(part, 0, 1000)
    if depth == 2:
        return of_one(part)
    if depth == 3:
        return of_point(part, points) if part.name == "point" else of_list(part, 1, 100)
    if depth == 4:
        return of_entry(part)
    return of_field(part, points)


def lacks(part, kinds):
    """Where a part is no obj, or lacks a child that it needs."""
    if part.kind != "obj":
        return part.at, f"this is {a(part.kind)}, and has to be an obj"
    missing = next((name for name in kinds if part.child(name) is None), None)
    return part.at, missing and f"it has no {kinds[missing]} named {missing}"


def of_root(part):
    return lacks(part, {"zone": "str", "schedules": "list"})


def of_one(part):
    return lacks(part, {"point": "uri", "entries": "list"})


def of_zone(part):
    if part.kind != "str":
        return part.at, f"the zone is {a(part.kind)}, and has to be a str with {ZONE}"
    return part.place("val"), f"the zone is no rule of POSIX: it has to be {ZONE}"


def of_list(part, least, most):
    if part.kind != "list":
        return part.at, f"{part.name} is {a(part.kind)}, and has to be a list"
    return part.at, f"{part.name} has {len(part.children):,} objects, and may have {least} to {most:,}"


def of_point(part, points):
    if part.kind != "uri" or not has_value(part):
        return part.at, "the point is a uri whose val is the path of a writable point"
    path = part.has["val"]
    before = part.parent.parent.children[:part.parent.nth - 1]
    if any(it.child("point") is not None and it.child("point").has.get("val") == path for it in before):
        return part.place("val"), f"an earlier schedule has the point {path}, and no two have one"
    there = points.at(path)
    if there is None:
        return part.place("val"), f"the site shows nothing at {path}: the path has to be written as the site shows it, from its first slash on"
    return part.place("val"), f"what the site shows at {path} is no writable point: it has to be a value that is obix:WritablePoint, outside the contracts"


def of_entry(part):
    at, why = lacks(part, {"day": "int", "at": "time", "value": "value"})
    if why is None:
        why = "an entry before it has its day and its time"
    return at, why


def of_field(part, points):
    if part.name == "day":
        return part.place("val"), "the day is an int from 1 (Monday) to 7 (Sunday)"
    if part.name == "at":
        return part.place("val"), "at is a time of the day in whole milliseconds, such as 06:30:00"
    point = part.parent.parent.parent.child("point")
    there = points.at(point.has.get("val", "")) if point is not None else None
    kind = there[1:].partition(" ")[0].partition("/")[0].partition(">")[0] if there else None
    if kind and part.kind != kind:
        return part.at, f"the value is {a(part.kind)}, and the point {a(kind)}: both have to be of one kind"
    if kind is None:
        return part.at, "the value has to be of a kind that has values"
    return part.place("val"), f"the point doesn't take this value: it shows {there if len(there) < 160 else there[:150] + '..'}"
