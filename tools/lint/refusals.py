"""The places and the causes of what `obix` refuses in a site file.

Each function gives findings: a place in bytes, and what is to say of it; the first is the refusal, the others are notes.
"""
import difflib
import re

from lint.parts import ATTRIBUTE, parts_of, text_of

KINDS = "obj bool int real str enum uri abstime reltime date time list op feed ref err".split()
WANTED = {
    "NotBool": "true, false, 1 or 0",
    "NotNumber": "a number: digits, without a unit or a comma, and without a point for an int",
    "NotFinite": "a number: NaN and INF aren't kept",
    "Digits": "a number of at most 18 digits and 18 places",
    "NotStatus": "disabled, fault, down, unackedAlarm, alarm, unacked, overridden or ok",
    "NotName": "a name of 1 to 255 bytes",
}
NOT_TIME = {
    "date": "a date such as 2026-01-05", "time": "a time such as 08:00:00 or 08:00:00.5",
    "abstime": "a date, T, a time, and Z or an offset, such as 2026-01-05T08:00:00Z or 2026-01-05T08:00:00+01:00",
    "reltime": "a span such as PT15M, PT0.5S or P1DT2H",
}
RANGE = {
    "date": "a day of the years 0001 to 9999", "time": "a time from 00:00:00 to 23:59:59",
    "abstime": "a day of the years 0001 to 9999, a time up to 23:59:59, and an offset up to 14:00",
    "reltime": "a span of at most 120,000 months, and of 2^63 - 1 nanoseconds beside them",
}
ODD = re.compile(b"[\x00-\x08\x0b\x0c\x0e-\x1f]|\xef\xbf[\xbe\xbf]")
REFERENCE = re.compile(rb"&(?:lt|gt|amp|quot|apos|#[0-9]+|#x[0-9A-Fa-f]+);")


def meant(word, words, nearness=0.6):
    """A hint at the word that was meant, if one of these is near."""
    near = difflib.get_close_matches(word, words, 1, nearness)
    return f" (is {near[0]} meant?)" if near else ""


def a(kind):
    """A kind with its article."""
    return f"an {kind}" if kind[0] in "aeio" else f"a {kind}"


def short(text):
    return text if len(text) < 60 else f"{text[:50]}..{text[-5:]}"


def of_document(data, cause, at):
    """Why the bytes are no document, by the words of the refusal and its place."""
    parts, opened, _ = parts_of(data, at)
    tag = max(data.rfind(b"<", 0, at), 0)
    word, kind = kind_at(data, at), kind_at(data, tag)
    found = ATTRIBUTE.match(data, at)
    name, value = (it.decode(errors="replace") for it in found.groups()) if found else ("", "")
    value = short(value)
    if cause.startswith("Value "):
        return [(at, f"{name}={value} of {a(kind)}: wanted is {wanted(cause[6:], kind)}")]
    if cause == "Twice":
        first = next(it for it in ATTRIBUTE.finditer(data, tag) if it[1] == found[1])
        return [(at, f"the attribute {name} stands twice in this tag"), (first.start(), "the first one")]
    if cause == "SameName":
        first = next((it for it in opened[-1].children if it.name == text_of(found[2][1:-1])), opened[-1])
        return [(at, f"{opened[-1]}: two children are named {value}"), (first.at, "the first one")]
    if cause == "Element":
        form = " and without a prefix" if ":" in word else ""
        hint = meant(word.rpartition(":")[2].lower(), KINDS)
        return [(at, f"<{short(word)}> is no element of oBIX: these are {', '.join(KINDS)}, in lower case{form}{hint}")]
    if cause == "Mismatch":
        begun = opened[-1]
        return [(at, f"</{short(word)}> stands where <{begun.kind}> is open"), (begun.at, f"{begun}: <{begun.kind}> begins here")]
    if cause == "Deep":
        return [(at, "this is level 33: a document has at most 32")]
    if cause == "Big":
        return [(at, "a document has at most 16,777,216 bytes")]
    if cause == "Ended":
        return ended(data)
    if cause == "Text":
        run = data[at:data.find(b"<", at) if b"<" in data[at:] else len(data)]
        blanks = len(run) - len(run.lstrip(b" \t\r\n"))
        plain = (at + blanks, "text between tags: what an object says stands in its attributes")
        return [odd_character(data, at, at + len(run)) or plain]
    return [markup(data, at, opened, parts, tag)] if cause == "Markup" else [(at, cause)]


def kind_at(data, at):
    """The kind of the tag that begins at a place."""
    found = re.match(rb"</?([^\s/>]+)", data[at:at + 300])
    return found[1].decode(errors="replace") if found else "tag"


def wanted(fault, kind):
    """What a value of a kind should be, by what it isn't."""
    if fault == "Range":
        return RANGE.get(kind, "a number within 64 bits: -9223372036854775808 to 9223372036854775807")
    return NOT_TIME.get(kind, "a time") if fault == "NotTime" else WANTED.get(fault, fault)


def odd_character(data, first, end):
    """The first byte or character of some that no document has, if there is one."""
    if data[:2] in (b"\xff\xfe", b"\xfe\xff") or b"\0" in data[:4]:
        return 0, "the file is UTF-16 or UTF-32: save it as UTF-8"
    try:
        data[first:end].decode()
    except UnicodeDecodeError as fault:
        return first + fault.start, f"the byte {data[first + fault.start]:02X} is no UTF-8: save the file as UTF-8"
    found = ODD.search(data, first, end)
    return (found.start(), f"the character U+{ord(found[0].decode()):04X} stands in no document") if found else None


def ended(data):
    """What is still open where the file ends."""
    _, opened, at = parts_of(data)
    if at >= 0:
        kind = "a comment" if data.startswith(b"<!--", at) else "an instruction" if data.startswith(b"<?", at) else "a tag"
        more = " (is a quotation mark missing?)" if kind == "a tag" and any(data.count(it, at) % 2 for it in (b'"', b"'")) else ""
        return [(len(data), f"the file ends inside {kind}{more}"), (at, "it begins here")]
    if opened:
        return [(len(data), f"the file ends, and <{opened[-1].kind}> is open"), (opened[-1].at, f"{opened[-1]}: it begins here")]
    return [(len(data), "the file has no element")]


def markup(data, at, opened, parts, tag):
    """What is malformed or misplaced at a place."""
    here = data[at:at + 300]
    if here.startswith(b"&"):
        text = re.match(rb"&[#\w]{0,20};?", here)[0].decode()
        if REFERENCE.match(here):
            return at, f"{text} is no character that a document has"
        if not text.endswith(";"):
            return at, "this & begins no reference: an & is written &amp;"
        return at, f"{text} isn't known: there are &lt; &gt; &amp; &quot; &apos; and numbers as &#160;"
    if here.startswith(b"<!--"):
        end = data.find(b"-->", at)
        odd, dashes = odd_character(data, at, len(data) if end < 0 else end), data.find(b"--", at + 4)
        return odd if odd and odd[0] < dashes else (dashes, "-- stands in no comment but at its end")
    if here.startswith(b"<![CDATA["):
        return at, "there are no CDATA sections: what an object says stands in its attributes"
    if here.startswith(b"<!"):
        return at, "there is no DOCTYPE, nor any other declaration with <!"
    if re.match(rb"<\?[xX][mM][lL][\s?]", here):
        if at not in (0, 3) or parts:
            return at, "the declaration <?xml ..?> stands at the start of the file alone"
        return at, 'the declaration has to be <?xml version="1.0"?>, with an encoding of UTF-8 or US-ASCII if any'
    if here.startswith(b"<?"):
        return at, "this instruction is malformed: it is <?TARGET TEXT?>"
    if here.startswith(b"</"):
        return at, "this end tag is malformed: it is </KIND>" if opened else "this end tag ends nothing: no element is open"
    if here.startswith(b"<"):
        whole = re.match(rb"<[^\s=/><\"'&]*", here)
        odd = odd_character(data, at, at + whole.end())
        if odd:
            return odd
        if whole.end() > 1 and parts and not opened:
            return at, "a second root: a document has one"
        return at, "a < that begins no tag (in a value it is written &lt;)"
    if here.startswith(b"/"):
        return at, "a / in a tag stands before its > alone"
    return attribute(data, at, tag)


def attribute(data, at, tag):
    """What is malformed in an attribute that begins at a place."""
    if data[at - 1:at] not in (b" ", b"\t", b"\r", b"\n"):
        return at, "white space is missing before this attribute, or a quotation mark in the one before it"
    found = ATTRIBUTE.match(data, at)
    if found:
        odd = odd_character(data, found.start(), found.end())
        return odd or (at, "this attribute is malformed")
    name = re.match(rb"[^\s=/><\"'&]+", data[at:at + 300])
    if not name:
        return at, "an attribute is NAME=\"VALUE\""
    text = name[0].decode(errors="replace")
    value = re.compile(rb"[ \t\r\n]*=[ \t\r\n]*").match(data, at + name.end())
    if not value:
        return at, f"the attribute {text} has no value"
    if data[value.end():value.end() + 1] not in (b'"', b"'"):
        return at, f"the value of {text} has no quotation marks"
    return at, f"the value of {text} has a < in it: its closing quotation mark is missing, or &lt; is meant"
