"""What passes in silence though it is likely a slip, seen from what the program shows of the site that the file opens.

Each function gives findings: a place in bytes, and what is to say of it.
"""
import re
from decimal import Decimal

from lint import points
from lint.openings import has_value, instant
from lint.parts import parts_of
from lint.refusals import KINDS, a, meant

NAMESPACE = "http://obix.org/ns/schema/1.0"
ATTRIBUTES = "name href is null val of in out display displayName icon max min precision range status tz unit writable".split()
BUILT_IN = ["obix:" + it for it in """Nil About BatchIn BatchOut Read Write Invoke Point WritePointIn WritablePoint HistoryRecord
    HistoryFilter AlarmFilter HistoryQueryOut History Alarm StatefulAlarm AckAlarmIn AckAlarm AckAlarmOut PointAlarm AlarmQueryOut
    AlarmSubject WatchInItem WatchIn WatchOut Watch WatchService Lobby BadUriErr UnsupportedErr PermissionErr""".split() + KINDS]
STANDARD = ["obix:" + it for it in """Range Weekday Month Unit Dimension HistoryRollupIn HistoryRollupOut HistoryRollupRecord
    HistoryAppendIn HistoryAppendOut""".split()]   # words of the standard that have no parts here
ROLES = {"obix:WritablePoint": "a value kind", "obix:History": "an obj", "obix:AlarmSubject": "an obj"}


def all_of(site, copy, program):
    """The findings of a site that opens, in the order of the file."""
    see(site, site.root, shown_root(site, copy, program))
    found = root(site) + leads_nowhere(site, copy, program)
    for part, written in zip(site.parts, site.written):
        found += attributes(part, written) + words(site, part) + points.of_unit(part)
        if part.shown is None:
            found += dropped(site, part)
        else:
            found += limits(site, part) + points.of_point(site, part)
            if not part.inside:
                found += unreachable(part) + roles(site, part)
    return sorted(found, key=lambda it: it[0])


def shown_root(site, copy, program):
    return parts_of(program.ask(copy, [site.paths[""]])[0])[0][0]


def see(site, part, shown):
    """Tells the own parts what is shown of them: own children stand first, in their order, then those that are given."""
    part.shown, seen = shown, 0
    for child in part.children:
        if seen < len(shown.children) and is_shown_as(site, child, shown.children[seen]):
            see(site, child, shown.children[seen])
            seen += 1
    part.given = shown.children[seen:]


def is_shown_as(site, part, shown):
    """Whether what is shown is an own part. One of a name that a role makes is compared whole, but for its status, since it
    may be the role's."""
    path = None if part.kind == "err" or "href" not in part.has else site.paths.get(part.has["href"]) or part.has["href"]
    if (part.kind, part.name, path) != (shown.kind, shown.name, shown.has.get("href")):
        return False
    if not any(part.name in names for names in site.DERIVED.values()):
        return True
    words = all(site.words(part, it) == shown.words(it) for it in ("is", "of", "in", "out") if it in part.has)
    others = (it for it in part.has if it not in ("href", "status", "is", "of", "in", "out", "range"))
    return words and all(shown.has.get(it) == part.has[it] for it in others)


def root(site):
    it, found = site.root, []
    if it.has.get("xmlns") != NAMESPACE:
        what = "has another xmlns than" if "xmlns" in it.has else "has no xmlns, as"
        found.append((it.place("xmlns"), f"the root {what} {NAMESPACE}, and so have the answers: clients that go by the namespace find"
                      " nothing in them"))
    watches = it.shown.child("watchService")
    if watches is None or not site.is_a(it, "obix:Lobby"):
        found.append((it.place("is"), 'the root is no obix:Lobby: clients find neither about, nor batch, nor watchService'))
    return found


def attributes(part, written):
    """Attributes that the program dropped, and names that aren't those of the standard."""
    found = []
    for name in written:
        if name in part.has or ":" in name or name in ("xmlns", "null"):
            continue
        if name == "val" and "null" in part.has:
            found.append((part.place(name), f'{part}: val is dropped, since null="true" goes before it'))
        elif name in ATTRIBUTES:
            found.append((part.place(name), f"{part}: {name} is dropped, since {a(part.kind)} has none"))
        else:
            hint = meant(name, ATTRIBUTES)
            found.append((part.place(name), f"{part}: the attribute {name} is dropped: oBIX has none of this name{hint}"))
    if part.name is not None and not re.fullmatch("[A-Za-z_$][A-Za-z0-9_$]*", part.name):
        found.append((part.place("name"), f"{part}: a name has letters, digits, _ and $ by the standard, and begins with no digit;"
                      " displayName may be any text"))
    return found


def words(site, part):
    """Words that no contract defines; those that lead to other servers aren't judged."""
    found = []
    for name in ("is", "of", "in", "out"):
        for text in part.words(name):
            word = site.word(text)
            known = word in BUILT_IN + STANDARD if word.startswith("obix:") else word in site.contracts
            foreign = re.match("https?://", word) or f"xmlns:{word.partition(':')[0]}" in site.written[0]
            if not known and (word.startswith(("obix:", "/")) or not foreign):
                more = "which is an object of the site, and no contract" if word in site.nodes else "which nothing defines"
                hint = meant(word, BUILT_IN + list(site.contracts), 0.85)
                found.append((part.place(name), f"{part}: {name} has the word {text}, {more}{hint}"))
    return found


def dropped(site, part):
    """The own child itself, and not what is in it."""
    if part.parent.shown is None or site.is_taken(part) or not any(part.name in it for it in site.DERIVED.values()):
        return []
    return [(part.at, f"{part}: this child is dropped: the server makes {part.name} of its own here")]


def measure(kind, text):
    """What is compared of a canonical value."""
    if kind in ("int", "real"):
        return Decimal(text)
    if kind == "abstime":
        return instant(text)
    if kind == "reltime":
        sign, months, seconds = re.match(r"(-?)P(?:(\d+)M)?(?:T([\d.]+)S)?$", text).groups()
        return (int(months or 0) * 30 * 86400 + Decimal(seconds or 0)) * (-1 if sign else 1)
    return text


def limits(site, part):
    """A value outside its limits, where the value or a limit is the part's own."""
    shown, own = part.shown, [it for it in ("val", "min", "max") if it in part.has]
    if not own or not (has_value(shown) or part.kind == "list"):
        return []
    kind = "int" if part.kind in ("str", "list") else part.kind
    told = str(len(shown.children)) if part.kind == "list" else str(len(shown.has["val"])) if part.kind == "str" else shown.has["val"]
    what = {"str": "the number of characters", "list": "the number of children"}.get(part.kind, "val")
    low, value, high = (measure(kind, it) if it is not None else None for it in (shown.has.get("min"), told, shown.has.get("max")))
    for end, side, holds in (("min", "below", low is not None and value < low), ("max", "above", high is not None and value > high)):
        if holds:
            more = "" if end in part.has else ", which it inherits"
            return [(part.place(own[0]), f"{part}: {what} {told} is {side} its {end} {shown.has[end]}{more}")]
    return []


def is_written(shown):
    return shown.kind in KINDS[1:11] and (shown.has.get("writable") == "true" or "obix:WritablePoint" in shown.words("is"))


def unreachable(part):
    """Writable points without an href, the part's own or those that its contracts give."""
    found = []
    if is_written(part.shown) and part.path is None:
        found.append((part.place("writable") if "writable" in part.where else part.place("is"),
                      f"{part}: it is writable, but has no href: it can't be read, watched or written alone"))
    left, names = part.given[::-1], []
    while left:
        it = left.pop()
        left += it.children[::-1]
        names += [it.name or f"a nameless {it.kind}"] if is_written(it) and "href" not in it.has else []
    if names:
        found.append((part.at, f"{part}: {', '.join(names)} of its contracts can't be read, watched or written alone: what is"
                      " inherited has no href, so give it a child of the same name with one"))
    return found


def roles(site, part):
    """Words of a role that the part doesn't get, histories that record nothing or without an end, rules that are never broken or
    from the start."""
    found = []
    for word, kind in ROLES.items():
        if word in part.words("is") and not site.has_role(part, word) and not (part.path is None and is_written(part.shown)):
            why = "has no href" if part.path is None else f"is {a(part.kind)} and not {kind}"
            found.append((part.place("is"), f"{part}: it is no {word[5:]}, since it {why}"))
    if site.has_role(part, "obix:History"):
        found += points.of_history(site, part)
    if site.has_role(part, "obix:AlarmSubject"):
        rules = part.child("rules", "list")
        if rules is None:
            found.append((part.at, f"{part}: an alarm subject without a list named rules has no alarms"))
        for rule in rules.children if rules else []:
            found += points.never_raised(site, rule) or begins_outside(site, rule)
        if rules and rules.children:
            found += points.room_for_alarms(site, part)
    return found


def begins_outside(site, rule):
    ref, source = points.source_of(site, rule)
    low, high = (rule.child(it).has["val"] for it in ("low", "high"))
    if not has_value(source.shown) or Decimal(low) <= Decimal(source.shown.has["val"]) <= Decimal(high):
        return []
    return [(ref.at, f"{rule}: {source.path} begins at {source.shown.has['val']}, outside {low} to {high}:"
             " no alarm is raised at the opening, only when another value outside is written")]


def leads_nowhere(site, copy, program):
    """Refs and ranges that lead to the site, where nothing stands when it opens."""
    leading = [(part, attribute, site.paths.get(part.has[attribute])) for part in site.parts for attribute in ("href", "range")
               if attribute in part.has and (attribute == "range" or part.kind == "ref")]
    leading = [it for it in leading if it[2] and len(it[2]) < 4000 and it[2] not in site.nodes]
    paths = sorted({it[2] for it in leading})
    replies = zip(paths, program.ask(copy, paths)) if paths else ()
    gone = {path for path, reply in replies if re.match(rb'<err [^>]*display="no such object"', reply)}
    return [(part.place(attribute), f"{part}: {attribute} leads to {path}, where nothing stands")
            for part, attribute, path in leading if path in gone]
