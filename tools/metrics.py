"""Points of oBIX as metrics of Prometheus: names, units, and the text that is scraped. Used by exporter.py."""
import re
from decimal import Decimal

from link import kind, moment

# Units by the conventions of Prometheus: base units in the plural, and numbers converted to them.
PREFIXES = {"": "1", "giga": "1e9", "mega": "1e6", "kilo": "1e3", "hecto": "1e2", "centi": "1e-2", "milli": "1e-3", "micro": "1e-6"}
UNITS = {prefix + base: (base if base == "hertz" else base + "s", Decimal(factor)) for prefix, factor in PREFIXES.items()
         for base in "second meter gram watt volt ampere pascal joule byte hertz".split()}
UNITS.update({name: (base, Decimal(factor)) for name, base, factor in (
    ("percent", "ratio", "0.01"), ("percent_relative_humidity", "relative_humidity_ratio", "0.01"),
    ("bar", "pascals", "1e5"), ("millibar", "pascals", "100"),
    ("minute", "seconds", "60"), ("hour", "seconds", "3600"), ("day", "seconds", "86400"), ("week", "seconds", "604800"),
    ("watt_hour", "joules", "3600"), ("kilowatt_hour", "joules", "3.6e6"), ("megawatt_hour", "joules", "3.6e9"))})
ESCAPES = str.maketrans({"\\": "\\\\", '"': '\\"', "\n": "\\n"})


def span(text):
    """Seconds of a reltime; a month is 30 days, as the server compares them, and a year 12 months."""
    found = re.fullmatch(r"(-?)P(?:(\d+)Y)?(?:(\d+)M)?(?:(\d+)D)?(?:T(?:(\d+)H)?(?:(\d+)M)?(?:([\d.]+)S)?)?", text or "")
    if not found:
        return None
    years, months, days, hours, minutes, seconds = (Decimal(it or 0) for it in found.groups()[1:])
    return (((years * 12 + months) * 30 + days) * 86400 + hours * 3600 + minutes * 60 + seconds) * (-1 if found[1] else 1)


def measured(number, unit):
    """The name of a unit in a metric, and the number in it."""
    name = re.sub("[^a-z0-9]+", "_", re.split("[/#:]", unit or "")[-1].lower()).strip("_")
    if name in ("fahrenheit", "degrees_fahrenheit"):
        return "celsius", (number - 32) * 5 / 9
    base, factor = UNITS.get(name) or UNITS.get(name[:-1] if name.endswith("s") else name) or (name or "value", Decimal(1))
    return base, number * factor


class Metrics(dict):
    """What is written of a scrape: families of samples, each with its help and its type."""

    def add(self, family, help, value, labels=(), type="gauge"):
        number = format(value.normalize(), "f") if isinstance(value, Decimal) else value
        shown = ",".join(f'{name}="{text.translate(ESCAPES)}"' for name, text in dict(labels).items() if text)
        head = f"# HELP obix_{family} {help}\n# TYPE obix_{family} {type}\n"
        self.setdefault(family, [head]).append(f"obix_{family}{'{' + shown + '}' if shown else ''} {number}\n")

    def text(self):
        return "".join(line for family in sorted(self) for line in self[family])


def add_point(out, path, it):
    """The samples of one point; null has no value."""
    what, text = {"path": path, "display_name": it.get("displayName")}, it.get("val") if it.get("null") != "true" else None
    facets = {"kind": kind(it), "unit": it.get("unit"), "writable": it.get("writable") or "false"}
    out.add("point_info", "What a point is.", 1, {**what, **facets})
    out.add("point_status", "The status of a point, as a label.", 1, {**what, "status": it.get("status") or "ok"})
    if text is None:
        return
    if kind(it) in ("int", "real"):
        unit, number = measured(Decimal(text), it.get("unit"))
        help = "Values of points without a unit." if unit == "value" else f"Values of points in {unit.replace('_', ' ')}."
        out.add(f"point_{unit}", help, number, what)
    elif kind(it) == "bool":
        out.add("point_bool", "Values of points that are true (1) or false (0).", int(text == "true"), what)
    elif kind(it) == "enum":
        out.add("point_state", "Values of points that are one word of several, as a label.", 1, {**what, "state": text})
    elif kind(it) == "reltime" and span(text) is not None:
        out.add("point_seconds", "Values of points in seconds.", span(text), what)
    elif kind(it) == "abstime" and moment(text) is not None:
        out.add("point_timestamp_seconds", "Values of points that are moments, in seconds from 1970.", moment(text) / 1000, what)
