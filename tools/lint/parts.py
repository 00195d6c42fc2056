"""The parts of a site file and their places in it, and what is printed of them. Whether bytes are a document, and what its
values are, isn't judged here: the program tells it.
"""
import bisect
import re
import unicodedata

TOKEN = re.compile(rb"""<!--.*?-->|<\?.*?\?>|<(/?)([^\s=/><"'&!?][^\s=/><"'&]*)((?:"[^"]*"|'[^']*'|[^<>"'])*?)(/?)>""", re.S)
ATTRIBUTE = re.compile(rb"""([^\s=/><"'&]+)[ \t\r\n]*=[ \t\r\n]*("[^"<]*"|'[^'<]*')""")
ESCAPES = {"lt": "<", "gt": ">", "amp": "&", "quot": '"', "apos": "'"}
WIDTH = 110


class Part:
    """An object: its number in the order of the document, where it begins in bytes, its attributes and their places."""

    def __init__(self, number, kind, at, parent):
        self.number, self.kind, self.at, self.parent = number, kind, at, parent
        self.has, self.where, self.children = {}, {}, []
        self.path, self.shown, self.taken, self.given = None, None, False, []
        self.inside = parent is not None and parent.inside   # in the contracts of the site
        self.nth = 1   # among its siblings
        if parent is not None:
            parent.children.append(self)
            self.nth = len(parent.children)

    @property
    def name(self):
        return self.has.get("name")

    def child(self, name, kind=None):
        return next((it for it in self.children if it.name == name and kind in (None, it.kind)), None)

    def words(self, attribute):
        text = self.has.get(attribute)
        return [it for it in re.split("[ \t\n\r]+", text) if it] if text else []

    def below(self, name):
        """The path of a child that its role makes."""
        return f"{self.path}{'' if self.path.endswith('/') else '/'}{name}"

    def place(self, attribute):
        return self.where.get(attribute, self.at)

    def __str__(self):
        """Its names from the root on; one without a name is told by its href, or its place among its siblings."""
        names, it = [], self
        while it.parent is not None:
            names.append(it.name or it.has.get("href") or f"{it.kind} {it.nth}")
            it = it.parent
        return " / ".join(reversed(names)) or "the root"


def text_of(raw):
    """The text of a value: literal white space is spaces, and references stand for their characters."""
    def character(found):
        code = int(found[1], 16) if found[1] else int(found[2]) if found[2] else 0
        return chr(code) if 0 < code < 0x110000 else ESCAPES.get(found[3], found[0])
    text = raw.decode(errors="replace")
    if "\n" in text or "\r" in text or "\t" in text:
        text = re.sub("\r\n|[\r\n\t]", " ", text)
    return re.sub(r"&(?:#x([0-9A-Fa-f]{1,8})|#([0-9]{1,9})|(\w+));", character, text) if "&" in text else text


def parts_of(data, end=None):
    """The objects whose tags end before a place, in the order of the document, those of them that are open there, and where
    a construct begins that isn't whole there (-1 if none does)."""
    parts, opened, end = [], [], len(data) if end is None else end
    at = data.find(b"<", 0, end)
    while at >= 0:
        found = TOKEN.match(data, at, end)
        if not found:
            break
        if found[2] and found[1]:
            del opened[-1:]
        elif found[2]:
            part = Part(len(parts), found[2].decode(errors="replace"), at, opened[-1] if opened else None)
            for it in ATTRIBUTE.finditer(data, *found.span(3)):
                name = it[1].decode(errors="replace")
                part.has[name], part.where[name] = text_of(it[2][1:-1]), it.start()
            part.inside = part.inside or (part.name == "contracts" and len(opened) == 1)
            parts.append(part)
            opened += [] if found[4] else [part]
        at = data.find(b"<", found.end(), end)
    return parts, opened, at


class File:
    """The file that is read, and the lines that are to be printed of it."""

    def __init__(self, name, data):
        self.name, self.data, self.lines, self.warnings = name, data, [], 0
        self.starts = [0] + [it.end() for it in re.finditer(b"\n", data)]

    def position(self, at):
        """Line and column of a byte, in characters from 1, and its line. The mark EF BB BF is no column."""
        row = bisect.bisect_right(self.starts, at)
        start = max(self.starts[row - 1], 3 if self.data.startswith(b"\xef\xbb\xbf") else 0)
        end = self.starts[row] - 1 if row < len(self.starts) else len(self.data)
        line = self.data[start:end].rstrip(b"\r")
        return row, len(self.data[start:at].decode(errors="replace")) + 1, line.decode(errors="replace")

    def say(self, at, grade, text):
        """A finding, the line that it is about, or what is near of a long one, and a caret below its place."""
        row, column, line = self.position(at)
        left = max(0, column - WIDTH // 2) if len(line) > WIDTH else 0
        piece, before, behind = line[left:left + WIDTH], "..." if left else "", "..." if len(line) > left + WIDTH else ""
        self.lines += [
            f"{self.name}:{row}:{column}: {grade}: {text}",
            "    " + before + "".join(c if c.isprintable() or c == "\t" else "\ufffd" for c in piece) + behind,
            "    " + " " * len(before) + "".join(map(blank, piece[:column - 1 - left])) + "^",
        ]
        self.warnings += grade == "warning"


def blank(character):
    """White space as wide as a character is in a terminal."""
    if character == "\t":
        return "\t"
    return "" if unicodedata.combining(character) else "  " if unicodedata.east_asian_width(character) in "WF" else " "
