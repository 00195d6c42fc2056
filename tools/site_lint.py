#!/usr/bin/env python3
"""Says where and why `obix` refuses a site file, and what in it passes in silence though it is likely a slip.

    tools/site_lint.py SITE
    tools/site_lint.py SITE --schedule FILE      the same of FILE, the weekly schedules of `obix schedule`, for a site that opens
    tools/site_lint.py --super CONFIG [--ask]    the same of CONFIG, the servers that `obix super` follows; --ask asks them too
    tools/site_lint.py SITE --record RECORD      whether RECORD, that `obix keep` wrote, fits SITE; if not, which entry, and why

What is refused, where hrefs lead and what the site shows is asked of the program itself, in runs that end at once. A finding is a line
FILE:LINE:COLUMN: refused, warning or note: TEXT, then the line of the file, and a caret below its place; columns count characters from
1. With --record the program gets a copy of RECORD in the folder for temporary files (TMPDIR), so a server may have RECORD meanwhile; it
takes as long as `obix compact`. This tool stands beside the proved program, and isn't proved.

status 0: nothing to say. 1: it opens, with warnings. 2: the file is refused, or the record doesn't fit. 3: nothing can be said, since
the words are no command, a file can't be read, or the program couldn't be asked.
"""
import argparse
import contextlib
import gc
import re
import signal
import sys
import tempfile
from pathlib import Path

from lint import configs, openings, records, refusals, schedules, slips
from lint.asking import Program, Site, Trouble
from lint.parts import File, parts_of


class Words(argparse.ArgumentParser):
    def error(self, message):
        self.print_usage(sys.stderr)
        self.exit(3, f"site_lint: {message}\n")


def of_opening(cause, data, copy, program):
    """The findings of a document that opens no site."""
    site, told = Site(copy, data, program), cause.split(" ")
    if cause == "RootHref":
        return openings.of_root(site.root)
    site.find_paths(program)
    if told[0] in ("Href", "Rule"):
        return {"Href": openings.of_href, "Rule": openings.of_rule}[told[0]](site, site.parts[int(told[1])])
    if told[0] == "Contract":
        return openings.of_contract(site, told[1], told[2])
    if told[0] == "PathTwice":
        return openings.of_path(site, told[1])
    if cause == "Size":
        return [(site.root.at, f"the site shows more than 200,000 parts: {len(site.parts):,} of the file, and what they inherit")]
    return [(site.root.at, "the file is refused")]


@contextlib.contextmanager
def copied(name):
    """The lines that are to be printed of a file, with its bytes, and the name of a copy that the program is asked about: the file is
    read once, and all that the program answers is of the same bytes."""
    with open(name, "rb") as file:
        data = file.read(1 << 25)
    with tempfile.NamedTemporaryFile(prefix="site_lint.", suffix=".xml") as copy:
        copy.write(data)
        copy.flush()
        yield File(name, data), copy.name


def lint(name, program):
    """The status, and the lines to print."""
    with copied(name) as (told, copy):
        return find(told, copy, program), told.lines


def find(told, copy, program):
    """Tells the findings, and gives the status."""
    data, cause = told.data, program.run("stdio", copy)[1]
    if cause is None:
        site = Site(copy, data, program)
        site.find_paths(program)
        return warn(told, slips.all_of(site, copy, program), "opens")
    place = re.fullmatch(r"(.*) at (\d+)", cause)
    return refuse(told, refusals.of_document(data, place[1], int(place[2])) if place else of_opening(cause, data, copy, program), cause)


def warn(told, findings, what):
    for at, text in findings:
        told.say(at, "warning", text)
    told.lines.append(f"{told.name}: {what}, {told.warnings} warning{'s' if told.warnings != 1 else ''}")
    return 1 if told.warnings else 0


def refuse(told, findings, cause):
    """The first finding is the refusal, with the program's own words; the others are notes."""
    for number, (at, text) in enumerate(findings):
        told.say(at, "note" if number else "refused", text if number else f"{text} [{cause}]")
    return 2


def lint_schedule(name, site, program):
    """The same of a file of schedules, for the site of a file that opens."""
    with copied(name) as (told, copy):
        cause = program.run("schedule", site, copy)[1]
        place, number = re.fullmatch(r"(.*) at (\d+)", cause or ""), re.match(r"Schedule (\d+) ", cause or "")
        if cause is None:
            told.lines.append(f"{told.name}: {count(told.data)}")
            return 0, told.lines
        if place:
            found = refusals.of_document(told.data, place[1], int(place[2]))
        elif number:
            found = schedules.of_schedule(parts_of(told.data)[0], int(number[1]), program, site)
        else:
            raise Trouble(f"{site}: refused for {cause}: ask about the site alone first")
        return refuse(told, found, cause), told.lines


def lint_super(name, program, is_asked):
    """The same of a config of `super`; its servers are asked if that is wanted."""
    with copied(name) as (told, copy):
        cause, parts = program.run("super", copy, "--rounds", "0")[1], parts_of(told.data)[0]
        if cause is None:
            found = configs.slips(parts, program) + (configs.answers(parts, program) if is_asked else [])
            count = len(parts[0].children)
            return warn(told, sorted(found, key=lambda it: it[0]), f"{count} server{'s' if count != 1 else ''}"), told.lines
        place = re.fullmatch(r"(.*) at (\d+)", cause)
        return refuse(told, refusals.of_document(told.data, place[1], int(place[2])) if place
                      else configs.of_config(parts, int(cause.split(" ")[1])), cause), told.lines


def lint_record(name, site, program):
    """Whether a RECORD of `keep` fits the site of a file, and else which entry doesn't."""
    record = Path(name).read_bytes()
    with copied(site) as (told, copy):
        refusal = program.run("stdio", copy)[1]
        number, cause = records.judged(record, copy, program) if refusal is None else (None, refusal)
        if cause is None:
            lines = of_batches(name, records.read(record)[1], copy, program)
            return 1 if lines else 0, [*lines, f"{name}: {int(number):,} entr{'y' if number == '1' else 'ies'}: nothing differs"]
        place, illegal = re.fullmatch(r"Record (\d+)", cause), re.fullmatch(r"illegal at (\d+)", cause)
        if place:
            return 2, [f"{name}: refused: it is no record from byte {place[1]} on: no entry begins there, nor what a stop leaves [{cause}]"]
        if not illegal:
            raise Trouble(f"{site}: refused for {cause}: ask about the site alone first")
        entries = records.read(record)[1][:int(illegal[1]) + 1]
        if len(entries) <= int(illegal[1]):
            raise Trouble(f"{name}: {cause}, and this tool reads {len(entries)} entries")
        say_entry(told, name, entries, copy, program, cause)
        return 2, told.lines


def of_batches(name, entries, copy, program):
    """The batches of a record that fits in which the site refuses something now."""
    found = [f"{name}: warning: entry {number}, {entries[number]}: the site refuses an item of this batch now ({why}); what it answered then"
             " isn't kept" for number, why in records.refused_batches(entries, copy, program)]
    return found if len(found) <= 20 else [*found[:20], f"{name}: {len(found) - 20:,} more such warnings"]


def say_entry(told, name, entries, copy, program, cause):
    """Tells of the last of these entries, which the site of a file answers otherwise."""
    entry, why, now = entries[-1], records.foreign(entries[-1]), None
    if why:
        told.lines.append(f"{name}: refused: {why} [{cause}]")
    else:
        site, now, path = Site(copy, told.data, program), records.replies_now(entries, copy, program)[-1][1], records.point_of(entry)
        site.find_paths(program)
        part, shown = site.nodes.get(path, site.root), schedules.Points(program, copy).at(path)
        told.say(part.at, "refused", f"{path}: {records.difference(entry, now, site, shown)} [{cause}]")
    told.lines += [f"{name}: entry {len(entries) - 1}, {entry}", f"    in the record: {records.short_text(entry.reply)}"]
    told.lines += [f"    now:           {records.short_text(now)}"] if now is not None else []


def count(data):
    """How many schedules and entries a file of them has."""
    parts = parts_of(data)[0]
    weeks = parts[0].child("schedules").children
    entries = sum(len(it.child("entries").children) for it in weeks)
    return f"{len(weeks)} schedule{'s' if len(weeks) != 1 else ''}, {entries} entries: nothing is refused"


def words_given():
    words = Words(description=__doc__, formatter_class=argparse.RawDescriptionHelpFormatter)
    words.add_argument("site", metavar="SITE", help="the site file")
    what = words.add_mutually_exclusive_group()
    what.add_argument("--schedule", metavar="FILE", help="the file of weekly schedules that is looked at in place of the site's")
    what.add_argument("--super", action="store_true", help="the file is no site, but a CONFIG of `obix super`")
    what.add_argument("--record", metavar="RECORD", help="the record of `obix keep` that is held against the site")
    words.add_argument("--ask", action="store_true", help="with --super: ask its servers whether they are there, and have the points;"
                       " one that takes a connection and says nothing is waited for 300 s")
    words.add_argument("--obix", metavar="PROGRAM", help="the program; without it one that is built beside the tools, or obix on the PATH")
    given = words.parse_args()
    if given.ask and not given.super:
        words.error("--ask goes with --super")
    return given


def findings(given):
    program = Program(given.obix)
    if given.super:
        return lint_super(given.site, program, given.ask)
    if given.schedule:
        return lint_schedule(given.schedule, given.site, program)
    return lint_record(given.record, given.site, program) if given.record else lint(given.site, program)


def main():
    given = words_given()
    try:
        status, lines = findings(given)
        sys.stdout.reconfigure(errors="backslashreplace")
        signal.signal(signal.SIGPIPE, signal.SIG_DFL)   # a reader may have seen enough
        print("\n".join(lines), flush=True)
        return status
    except KeyboardInterrupt:
        return 130
    except (OSError, ValueError) as fault:
        trouble = f"{getattr(fault, 'filename', None) or given.site}: {getattr(fault, 'strerror', None) or fault}"
    except Trouble as fault:
        trouble = str(fault)
    except RecursionError:
        trouble = f"{given.site}: contracts that inherit from so many others are more than this tool follows"
    print(f"site_lint: {trouble}", file=sys.stderr)
    return 3


if __name__ == "__main__":
    gc.disable()   # parts refer to one another, and the process ends soon
    sys.exit(main())
