#!/usr/bin/env python3
"""Counts what docs/TESTING.md tells the counts of, from the files of the repository.

    python3 bench/counts.py            prints each count, and those that the page has otherwise; status 1 where there are such
    python3 bench/counts.py --write    puts them into the page

A count of the page stands in the second cell of a table's row whose first cell begins with its name.
"""
import re
import sys
from pathlib import Path

TOP = Path(__file__).resolve().parent.parent
PAGE = TOP / "docs/TESTING.md"
RUN = re.compile(r"(\d+)([*!])? .* => ")


def lines_of(pattern):
    """The lines of all files of that form, without remarks."""
    for path in sorted(TOP.glob(pattern)):
        for line in path.read_text(encoding="utf-8").splitlines():
            if line and not line.startswith("###"):
                yield path, line


def files(pattern):
    return sum(1 for _ in TOP.glob(pattern))


def matches(pattern, form):
    return sum(len(re.findall(form, path.read_text(encoding="utf-8"), re.M)) for path in TOP.glob(pattern))


def rows(crates):
    """The rows of the stored outputs of these crates, a table that is read in two ways counted twice."""
    return sum(int(it[1]) for _, line in lines_of(f"crates/{crates}/stdout") if (it := re.search(r": (\d+) rows$", line)))


def rows_of(crates, *tables):
    """The rows of these tables of these crates."""
    return sum(int(it[2]) for _, line in lines_of(f"crates/{crates}/stdout")
               if (it := re.match(r"(\w+)\.rows: (\d+) rows$", line)) and it[1] in tables)


def runs(kept):
    """The whole runs of the program: those whose piece has one of these signs."""
    found = 0
    for path, line in lines_of("crates/ob_vectors_runs/data/*.rows"):
        row = RUN.match(line)
        found += bool(row and path.name not in ("sessions.rows", "mirrors.rows", "polls.rows") and (row[2] or "") in kept)
    return found


def requests():
    """The dialogues and the requests of the rows of requests."""
    table = [line for _, line in lines_of("crates/ob_vectors*/data/requests.rows")]
    opened = sum(line.startswith("open ") for line in table)
    return opened, sum(" => " in line for line in table) - opened


def planted():
    """The bodies that `rt plant` tried and that were refused, by the table of docs/TESTING.md."""
    text = PAGE.read_text(encoding="utf-8").partition("| Crate, calls | Refused |")[2].partition("\n\n")[0]
    return sum(int(cell) for cell in re.findall(r"^\| [^|]+ \| (\d+) \|", text, re.M))


def broken():
    """The wrong definitions of the tables of docs/TESTING.md."""
    text = PAGE.read_text(encoding="utf-8").partition("## Wrong definitions")[2].partition("\n## ")[0]
    return len(re.findall(r"^\| (?!Wrong definition|---)", text, re.M))


def hostile():
    """The forms of bench/hostile.py."""
    return matches("bench/hostile.py", r'^    "[^"]+": \([\d_]+, ')


def front():
    return matches("bench/front_tries.py", r"^def \w+\(it\):")


def counted():
    dialogues, asked = requests()
    return {
        "crates": files("crates/*/src"),
        "functions": matches("crates/*/src/**/*.rt", r"^\s*(?:pub(?:\([a-z]+\))? )?fn [a-z_]"),
        "wrong bodies, in the gate": files("crates/*/must-fail/*.edit"),
        "wrong bodies, by hand": files("crates/*/attacks/*.edit"),
        "planted bodies": planted(),
        "wrong definitions": broken(),
        "rows over the crates": rows("ob_vectors*") - rows("ob_vectors_runs"),
        "requests": asked,
        "dialogues": dialogues,
        "altered replies": sum(int(it[1]) for _, line in lines_of("crates/ob_vectors*/data/audits.rows") if (it := re.search(r"illegal (\d+)$", line))),
        "whole runs": runs(("", "*", "!")),
        "runs with each call failing": runs(("*",)),
        "sessions and mirrors": rows_of("ob_vectors_runs", "sessions", "mirrors"),
        "two clients": rows_of("ob_vectors_runs", "polls"),
        "rows of callers of one machine": rows_of("ob_vectors*", "turns", "desks", "served"),
        "rows of a site of 55,013 parts": rows_of("ob_vectors*", "sizes"),
        "whole runs of two workers": matches("crates/ob_vectors_runs/data/serve.rows", r"^\d+\S* serve .*waits "),
        "tests of what the system has": matches("crates/ob_system_tests/src/**/*.rt", r"^\s*#\[test\]"),
        "hostile forms": hostile(),
        "tries of nginx": front(),
    }


def spelled(number):
    return f"{number:,}"


def main():
    text, otherwise = PAGE.read_text(encoding="utf-8"), []
    for name, number in counted().items():
        row = re.compile(rf"^(\| {re.escape(name)}[^|]*\| )([\d,]+)( \|)", re.M)
        found = row.search(text)
        print(f"{name}: {spelled(number)}")
        if not found or found[2] != spelled(number):
            otherwise.append(f"{name}: the page has {found[2] if found else 'no such row'}")
            text = row.sub(rf"\g<1>{spelled(number)}\g<3>", text)
    if sys.argv[1:] == ["--write"]:
        PAGE.write_text(text, encoding="utf-8")
        return 0
    print("\n".join(otherwise), end="\n" if otherwise else "")
    return 1 if otherwise else 0


if __name__ == "__main__":
    sys.exit(main())
