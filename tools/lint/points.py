"""What passes in silence of points, their histories and their alarms: what nothing can write, what fills up, values that aren't in
their range, hrefs that read otherwise than they are written, and units whose names are misspelt.

Each function gives findings: a place in bytes, and what is to say of it.
"""
import re
from pathlib import Path
from urllib.parse import quote

from lint.openings import has_value, kept
from lint.refusals import meant

ENTRIES, ENOUGH = 1_000_000, 100_000   # what histories and alarms have room for together, and what alarms should have of it
UNIT, PLAIN = "obix:units/", re.compile("[A-Za-z0-9_.~:/-]*")   # what begins a unit of the standard; letters that no URL escapes


def of_point(site, part):
    """The findings of an own object that is shown."""
    return of_enum(site, part) + of_path(site, part)


# ---- what nothing can write, and what fills up


def can_be_written(site, part):
    """By a PUT, or by the op that a role gives it; a schedule writes by that op too."""
    return part.shown.has.get("writable") == "true" or site.has_role(part, "obix:WritablePoint")


def source_of(site, part):
    """The ref named source of a history or a rule, and the object there, in a site that opens; None where it has no ref."""
    ref = part.child("source", "ref")
    return (ref, site.nodes[site.paths[ref.has["href"]]]) if ref else (None, None)


def of_history(site, part):
    ref, source = source_of(site, part)
    if ref is None:
        return [(part.at, f"{part}: a history without a ref named source records no writes")]
    if not can_be_written(site, source):
        return [(ref.at, f"{part}: nothing can write its source {source.path}, so no record ever comes: what a sensor measures is"
                 ' written by a program, and the point needs writable="true"')]
    if part.child("capacity", "int") is None:
        return [(part.at, f"{part}: without an int named capacity it keeps every record: when histories and alarms have {ENTRIES:,}"
                 f" entries together, each write to {source.path} is refused")]
    return []


def never_raised(site, rule):
    """A rule of a point that nothing can write."""
    ref, source = source_of(site, rule)
    if can_be_written(site, source):
        return []
    return [(ref.at, f"{rule}: nothing can write its source {source.path}, so no alarm is ever raised: what a sensor measures is"
             ' written by a program, and the point needs writable="true"')]


def room_for_alarms(site, subject):
    """What the histories leave for alarms."""
    histories = [it for it in site.parts if site.has_role(it, "obix:History") and not site.is_dropped(it)]
    stored = sum(map(kept, histories))
    if ENTRIES - stored >= ENOUGH:
        return []
    return [(subject.at, f"{subject}: the histories keep {stored:,} records together, which leaves {ENTRIES - stored:,} of {ENTRIES:,}"
             " entries for alarms: an alarm takes two or three, and gives none back. When they are used up, each write that would raise or"
             " end an alarm is refused, and each acknowledgement")]


# ---- enums


def of_enum(site, part):
    if part.kind != "enum":
        return []
    range_ = part.shown.has.get("range")
    if range_ is None:
        over = site.overridden(part)
        if (part.inside and part.number in ranged(site)) or (over and over.kind == "enum" and over.number not in ranged(site)):
            return []   # those that inherit it have one; or the contract that it inherits from has the warning
        return [(part.at, f"{part}: an enum without a range, the list of the names that it may have: its value may be any text")]
    there = site.contracts.get(range_) or site.nodes.get(range_)
    if there is None or there.shown is None or not has_value(part.shown) or not {"val", "range"} & set(part.has):
        return []
    names, value = [it.name for it in there.shown.children if it.name], part.shown.has["val"]
    if value in names:
        return []
    listed = ", ".join(names[:8]) + (", .." if len(names) > 8 else "") if names else "no names"
    return [(part.place("val") if "val" in part.has else part.place("range"),
             f"{part}: val {value} isn't in its range {range_}, which has {listed}{meant(value, names)}")]


def ranged(site):
    """The enums of contracts that get a range from an object which inherits them."""
    if site.kept_ranged is None:
        over = (site.overridden(it) for it in site.parts if it.kind == "enum" and not it.inside and "range" in it.has)
        site.kept_ranged = {it.number for it in over if it}
    return site.kept_ranged


# ---- hrefs


def of_path(site, part):
    """An href of which a letter is escaped: how the path reads. Where the escaped letters are those of the path round it, that one
    has the warning."""
    if part.path is None or PLAIN.fullmatch(part.has["href"]):
        return []
    text, up = part.has["href"].strip(), part.parent
    letters = {it: quote(it, safe="") for it in sorted(set(text))}
    odd = [it for it in letters if letters[it] != it and letters[it] in part.path and letters[it] not in text]
    while up is not None and up.path is None:
        up = up.parent
    above = up.path.rstrip("/") + "/" if up is not None else ""
    if not odd or (above and part.path.startswith(above) and not any(letters[it] in part.path[len(above):] for it in odd)):
        return []
    told = " and ".join("a blank" if it == " " else it for it in odd)
    return [(part.place("href"), f"{part}: its path reads {part.path} in answers, schedules and metrics:"
             f" {told} {'is' if len(odd) == 1 else 'are'} escaped in URLs; a displayName may be any text")]


# ---- units


def of_unit(part):
    text = part.has.get("unit")
    if text is None or not text:
        return []
    if ":" not in text and "/" not in text:
        return [(part.place("unit"), f"{part}: a unit is a URI, such as {UNIT}celsius")]
    if text.startswith(UNIT):
        name = text[len(UNIT):]
        near = None if is_known(name) else nearest(name)
        said = f"is {UNIT}{near} meant?" if near else "a name that this tool doesn't know, and the standard may not have: programs may show it as it stands"
        return [] if is_known(name) else [(part.place("unit"), f"{part}: {text}: {said}")]
    if text.lower().startswith("obix:"):
        return [(part.place("unit"), f"{part}: {text}: a unit of the standard is {UNIT} and its name, such as {UNIT}celsius")]
    return []


def is_known(name):
    return name in UNITS or (name.endswith("s") and name[:-1] in UNITS)


def nearest(name):
    """The name of a known unit that this one misspells, by one letter, or in a name of seven or more by two inside it; None where it
    isn't near to any."""
    small = name.lower()
    if is_known(small):
        return small
    if len(name) < 4:
        return None
    near = [it for it in UNITS if it[0] == small[0] and abs(len(it) - len(small)) <= 2]
    near = [(distance(small, it), it) for it in near]
    near = [it for it in near if it[0] == 1 or (it[0] == 2 and len(small) > 6 and it[1][-1] == small[-1])]
    return min(near)[1] if near else None


def distance(one, other):
    """How many letters are left out, doubled, altered or swapped with their neighbour between two words."""
    rows = [list(range(len(other) + 1))]
    for i, a in enumerate(one, 1):
        row = [i]
        for j, b in enumerate(other, 1):
            least = min(rows[-1][j] + 1, row[-1] + 1, rows[-1][j - 1] + (a != b))
            swapped = i > 1 and j > 1 and a == other[j - 2] and one[i - 2] == b
            row.append(min(least, rows[-2][j - 2] + 1) if swapped else least)
        rows.append(row)
    return rows[-1][-1]


def known_units():
    text = (Path(__file__).parent / "units.txt").read_text(encoding="utf-8")
    return frozenset(re.sub("#.*", "", text).split())


UNITS = known_units()
