#!/usr/bin/env python3
"""Looks for lines and table cells of the pages that are too long to be read.

    dev/pages_check.py [PAGE..]     (default: all pages of the repository)

Says `file:line: ..` for each line of more than 400 characters and each cell of more than 250, the longest first.
Status 0: there is none. 1: there are some. 2: the words are no pages. Lines of code blocks count too.
"""
import argparse
import re
import sys
from pathlib import Path

TOP = Path(__file__).resolve().parent.parent
PAGES = ("README.md", "CHANGELOG.md", "CONTRIBUTING.md", "SECURITY.md", "docs/*.md", "tools/README.md", "bench/README.md",
         "examples/README.md", "crates/*/README.md")
LINE, CELL = 400, 250
BETWEEN_CELLS = re.compile(r"(?<!\\)\|")


def cells_of(line):
    """The cells of a row; a mark `|` inside backquotes is none."""
    if not line.startswith("|"):
        return []
    plain = re.sub(r"`[^`]*`", lambda code: code[0].replace("|", "\0"), line.strip().strip("|"))
    return [cell.strip() for cell in BETWEEN_CELLS.split(plain)]


def too_long(path):
    """What is too long in a page: how much, the line's number, and what it is."""
    for number, line in enumerate(path.read_text(encoding="utf-8").splitlines(), 1):
        if len(line) > LINE:
            yield len(line), number, f"a line of {len(line)} characters"
        longest = max(map(len, cells_of(line)), default=0)
        if longest > CELL:
            yield longest, number, f"a cell of {longest} characters"


def main():
    parser = argparse.ArgumentParser(description=__doc__, formatter_class=argparse.RawDescriptionHelpFormatter)
    parser.add_argument("pages", nargs="*", type=Path, metavar="PAGE")
    pages = parser.parse_args().pages or [it for form in PAGES for it in sorted(TOP.glob(form))]
    gone = [str(it) for it in pages if not it.is_file()]
    if gone:
        print(f"pages_check: not there: {', '.join(gone)}", file=sys.stderr)
        return 2
    found = sorted(((*it, page) for page in pages for it in too_long(page)), key=lambda it: -it[0])
    for _, number, what, page in found:
        print(f"{page.relative_to(TOP) if page.is_relative_to(TOP) else page}:{number}: {what}")
    return 1 if found else 0


if __name__ == "__main__":
    sys.exit(main())
