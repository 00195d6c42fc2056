#!/usr/bin/env python3
"""Writes a site file for bench/load.sh: load_sites.py points|histories|contracts|naming COUNT."""
import sys


def points(count):
    """So many writable points."""
    for i in range(count):
        yield f'<real href="p{i}" val="1" is="obix:WritablePoint" writable="true"/>'


def histories(count):
    """So many points, a tenth of them with a history of one record, and as many with a rule of the alarm subject."""
    yield from points(count)
    for i in range(0, count, 10):
        yield (
            f'<obj href="h{i}" is="obix:History"><ref name="source" href="p{i}"/><list name="data"><obj>'
            '<abstime name="timestamp" val="2026-01-05T07:00:00Z"/><real name="value" val="1"/></obj></list></obj>'
        )
    yield '<obj name="alarms" href="alarms" is="obix:AlarmSubject"><list name="rules">'
    for i in range(0, count, 10):
        yield f'<obj><ref name="source" href="p{i}"/><real name="low" val="0"/><real name="high" val="80"/><bool name="needsAck" val="true"/></obj>'
    yield "</list></obj>"


def contracts(count):
    """So many contracts without parts."""
    yield '<list name="contracts">'
    for i in range(count):
        yield f'<obj href="c{i}"/>'
    yield "</list>"


def naming(count):
    """So many contracts, each of which names all earlier ones."""
    yield '<list name="contracts">'
    for i in range(count):
        words = " ".join(f"/obix/c{j}" for j in range(i))
        yield f'<obj href="c{i}" is="{words}"/>' if words else f'<obj href="c{i}"/>'
    yield "</list>"


kinds = {"points": points, "histories": histories, "contracts": contracts, "naming": naming}
print('<obj href="http://h/obix/">' + "".join(kinds[sys.argv[1]](int(sys.argv[2]))) + "</obj>")
