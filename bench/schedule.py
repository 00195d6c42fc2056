"""The runs of bench/schedule.sh."""
import os
import re
import subprocess
import sys
import tempfile
from datetime import datetime, timedelta, timezone

PROGRAM = sys.argv[1]
ZONE = "EST5EDT,M3.2.0,M11.1.0"
MONDAY = datetime(2026, 1, 5, tzinfo=timezone.utc)


def ms(moment):
    return int(moment.timestamp() * 1000)


def offset(local, after=False):
    """The offset of New York's clock before a change at this local time (or after it), by the rule of the zone."""
    def sunday(month, nth):
        first = datetime(local.year, month, 1)
        return first + timedelta(days=(6 - first.weekday()) % 7 + 7 * (nth - 1), hours=2)
    spring, autumn = sunday(3, 2), sunday(11, 1)
    # in the hour that is jumped over, and in the one that comes twice, the offset before the change counts
    ends = spring + timedelta(hours=1)
    return timedelta(hours=-4 if ends <= local < autumn else -5)


def fires(entries, first, last):
    """The firings of entries (day, seconds, value) after a moment and up to another, in order, as UTC and value."""
    found, day = [], (first - timedelta(days=2)).date()
    while day <= last.date() + timedelta(days=2):
        for number, (weekday, seconds, value) in enumerate(entries):
            if day.isoweekday() == weekday:
                local = datetime(day.year, day.month, day.day) + timedelta(seconds=seconds)
                at = (local - offset(local)).replace(tzinfo=timezone.utc)
                if first < at <= last:
                    found.append((at, weekday, seconds, value))
        day += timedelta(days=1)
    return [(at, value) for at, _, _, value in sorted(found)]


def point(number):
    return f'<int href="/obix/p{number}" is="obix:WritablePoint" val="0" writable="true"/>'


def week(number, entries):
    told = "".join(f'<obj><int name="day" val="{d}"/><time name="at" val="{s // 3600:02}:{s // 60 % 60:02}:{s % 60:02}"/><int name="value" val="{v}"/></obj>'
                   for d, s, v in entries)
    return f'<obj><uri name="point" val="/obix/p{number}"/><list name="entries">{told}</list></obj>'


def write(folder, weeks):
    with open(f"{folder}/site", "w") as file:
        file.write('<obj href="http://h/obix/">' + "".join(point(it) for it in range(len(weeks)))
                   + '<obj href="/obix/h" is="obix:History"><ref name="source" href="/obix/p0"/></obj></obj>')
    with open(f"{folder}/weeks", "w") as file:
        file.write(f'<obj><str name="zone" val="{ZONE}"/><list name="schedules">{"".join(week(n, it) for n, it in enumerate(weeks))}</list></obj>')


def run(folder, at, tick, requests):
    """Processor seconds, MB at the most, and what was written."""
    with open(f"{folder}/asked", "w") as file:
        file.write(requests)
    with open(f"{folder}/asked") as given, open(f"{folder}/told", "w") as told, tempfile.NamedTemporaryFile("r") as used:
        words = [PROGRAM, "schedule", f"{folder}/site", f"{folder}/weeks", "--at", str(at), "--tick", str(tick)]
        status = subprocess.run(["/usr/bin/time", "-q", "-f", "%U %S %M", "-o", used.name, *words], stdin=given, stdout=told).returncode
        assert status == 0, status
        user, system, most = map(float, used.read().split())
    with open(f"{folder}/told") as told:
        return user + system, most / 1024, told.read()


def try_values(folder):
    """The value of one point hour by hour over the changes of 2026, and the records of its history."""
    entries = [(7, 5400, 1), (7, 9000, 2), (7, 12600, 3), (1, 0, 4), (3, 43200, 5), (6, 86399, 6)]
    write(folder, [entries])
    count = 0
    for begin in (datetime(2026, 3, 6, tzinfo=timezone.utc), datetime(2026, 10, 30, tzinfo=timezone.utc), MONDAY):
        hours = 96
        asked = "GET /obix/p0 HTTP/1.1\r\n\r\n" * hours
        values = [int(it) for it in re.findall(r'val="(-?\d+)"', run(folder, ms(begin), 3_600_000, asked)[2])]
        for hour, value in enumerate(values):
            moment = begin + timedelta(hours=hour)
            wanted = fires(entries, moment - timedelta(days=9), moment)[-1][1]
            assert value == wanted, (moment, value, wanted)
            count += 1
        body = "<obj/>"
        query = f"POST /obix/h/query HTTP/1.1\r\nContent-Length: {len(body)}\r\n\r\n{body}"
        last = begin + timedelta(hours=hours)
        told = run(folder, ms(begin), 3_600_000 * hours, "GET /obix/p0 HTTP/1.1\r\n\r\n" + query)[2]
        records = re.findall(r'name="timestamp" val="([^"]*)".*?name="value" val="(\d+)"', told.split('name="data"')[1])
        wanted = [(at.strftime("%Y-%m-%dT%H:%M:%SZ"), str(value)) for at, value in fires(entries, begin, last)]
        boot = (begin.strftime("%Y-%m-%dT%H:%M:%SZ"), str(fires(entries, begin - timedelta(days=9), begin)[-1][1]))
        kept, before = [], "0"
        for record in [boot, *wanted]:
            if record[1] != before:
                kept.append(record)
            before = record[1]
        assert records == kept, (begin, records, kept)
        count += len(records)
    print(f"{count} values and records are those that Python reckons")


def measure(folder):
    quiet = "GET /obix/p0 HTTP/1.1\r\n\r\n"
    far = [[(4, it * 864 + number % 60, it) for it in range(100)] for number in range(1000)]
    write(folder, far)
    once, twice = (run(folder, ms(MONDAY) + 3600_000, 1, quiet * many) for many in (500, 1000))
    print(f"100,000 entries of 1,000 points, all of a Thursday: a request on Monday {(twice[0] - once[0]) / 500 * 1e6:.0f} us")
    weeks = [[(1 + it // 15 % 7, it * 864 + number % 60, it) for it in range(100)] for number in range(1000)]
    write(folder, weeks)
    opened = run(folder, ms(MONDAY) + 3600_000, 0, "")
    once, twice = (run(folder, ms(MONDAY) + 3600_000, 0, quiet * many) for many in (200, 400))
    print(f"100,000 entries of 1,000 points ({os.path.getsize(f'{folder}/weeks') / 1e6:.1f} MB): opening {opened[0]:.2f} s, {opened[1]:.0f} MB at the most")
    print(f"spread over the week, three of ten near enough that the zone is asked: a request with nothing due {(twice[0] - once[0]) / 200 * 1e6:.0f} us")
    once, twice = (run(folder, ms(MONDAY), 86_400_000, quiet * many) for many in (8, 15))
    print(f"a day's firings, {100_000 / 7:,.0f} on average: {(twice[0] - once[0]) / 7 * 1e3:.0f} ms")


with tempfile.TemporaryDirectory() as folder:
    try_values(folder)
    measure(folder)
