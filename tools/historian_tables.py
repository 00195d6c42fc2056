"""What tools/historian.py stores, and where: pages of records, and one connection to PostgreSQL, by which one server is stored.

historian.sql says what is in the tables. It stands beside the proved program and isn't proved. It needs python3-psycopg, and
historian.sql, follow.py and link.py beside it.
"""
import datetime
import pathlib
import re
from dataclasses import dataclass
from typing import Optional
from xml.sax.saxutils import quoteattr

from follow import events, state_of
from link import Refused, children, kind, needed, val

try:
    import psycopg
    from psycopg.conninfo import conninfo_to_dict
except ImportError:
    psycopg = None                           # historian.py says so

TABLES = pathlib.Path(__file__).with_name("historian.sql")
PAGE, LARGEST = 200, 10_000                  # new records of a page, and of one that begins at a moment with many
ANEW, BACK = "the server began anew", "the server went back"
LOCK = 6125                                  # the class of the advisory locks: with 0 of the tables, with an id of a server
LASTING = {"connect_timeout": 10, "keepalives_idle": 30, "tcp_user_timeout": 30_000, "fallback_application_name": "obix historian"}


def database(text):
    """What a connection needs, by a text as libpq takes it. `ValueError`, without a word of the text, where it is none or where a
    password has bytes that lead into other words: a fault would show these."""
    try:
        found = conninfo_to_dict(text)
        names = found.get("host", "")[1:] + found.get("dbname", "")
        if "@" in names or not found.get("port", "0").replace(",", "").isdigit():
            raise ValueError
    except (psycopg.Error, ValueError):
        raise ValueError("--to is no database such as postgresql://USER@HOST/DATABASE or \"host=HOST dbname=DATABASE\" "
                         "(in a URL the / : @ % of a password are %2F %3A %40 %25)") from None
    return {**LASTING, **found, "client_encoding": "utf8"}


def instant(text):
    """An abstime in UTC, cut to the microsecond, as the database keeps it."""
    cut = re.sub(r"(\.\d{1,6})\d*", lambda it: it[1].ljust(7, "0"), text).replace("Z", "+00:00")
    return datetime.datetime.fromisoformat(cut).astimezone(datetime.timezone.utc)


def cell(value):
    """A value as (num, txt) of a record."""
    text = value.get("val")
    if kind(value) == "bool":
        return {"true": 1, "false": 0}.get(text, text), None
    return (text, None) if kind(value) in ("int", "real") and text not in ("NaN", "INF", "-INF") else (None, text)


def moment(record):
    return instant(needed(record, "timestamp").get("val"))


class Page:
    """What a query gave: the records, and in numbers, where the server knows them, how many records the history dropped, and which its
    first one is, where there is one; the first that the history ever had is 0."""

    def __init__(self, answer):
        told = children(answer)
        self.data = list(needed(answer, "data"))
        self.gone, self.first = (None if text is None else int(text) for text in (val(told, "gone"), val(told, "first")))


@dataclass(eq=False)
class History:
    """What is held of a history. Its stored records end at a place: the moment `at`, of which `k` records are stored, and the number
    `next` of the record that comes after them, where it is known."""
    path: str
    query: str
    id: int
    at: Optional[datetime.datetime]
    k: int
    careful: Optional[datetime.datetime]     # up to this moment records may be stored already
    next: Optional[int]
    is_sure: bool = False                    # since the server was joined, the last stored record was seen to be there

    def page(self):
        """How many records are asked for: those that are known come again, and are among them."""
        return PAGE + self.again() if self.next is not None else self.k + max(PAGE, min(self.k, LARGEST))

    def again(self):
        """How many known records are asked for by number: the last one, until it was seen to be there."""
        return 0 if self.is_sure else 1

    def asked(self):
        """A server that numbers no records leaves `from` out of account."""
        number = 0 if self.next is None else self.next - self.again()
        start = f'<abstime name="start" val="{self.at.isoformat()}"/>' if self.at and self.next is None else ""
        return (f'<uri is="obix:Invoke" val={quoteattr(self.query)}><obj name="in"><int name="limit" val="{self.page()}"/>'
                f'<int name="from" val="{number}"/>{start}</obj></uri>')

    def new(self, page, run):
        """The rows of the records of a page, without those that are known, and the place that they lead to."""
        rows, at, k, same, data = [], self.at, self.k, 0, page.data
        if self.next is not None:
            same, data = self.k, data[1:] if page.first == self.next - 1 else data
        for record in data:
            then = moment(record)
            same = same + 1 if then == at else 1
            if then != at or same > k:
                at, k = then, same
                rows.append((self.id, run, at, k - 1, *cell(needed(record, "value"))))
        return rows, at, k

    def following(self, page):
        """The number of the record after those of a page, where it is known."""
        if page.first is not None:
            return page.first + len(page.data)
        return self.next if self.next is None or page.gone is None else max(self.next, page.gone)

    def gap(self, page, shown):
        """From when to when records are missing, or may be, before those of a page, why, and how many where that is known, by what the
        history showed in that moment; else None."""
        return self.gap_by_moment(page, shown) if self.next is None else self.gap_by_number(page, shown)

    def gap_by_number(self, page, shown):
        if page.gone > self.next:
            oldest = val(shown, "start")
            return self.at, instant(oldest) if oldest else self.at, "rolled over", page.gone - self.next
        is_there = self.is_sure or page.gone == self.next or page.first == self.next - 1 and moment(page.data[0]) == self.at
        return None if is_there else (self.at, None, BACK, None)

    def gap_by_moment(self, page, shown):
        """Where the oldest record that is kept is of the place's moment, nothing says whether one is missing, unless none was dropped."""
        known = self.careful if self.careful and not self.k else self.at
        oldest, capacity = val(shown, "start"), val(shown, "capacity")
        if page.gone != 0 and known and oldest and capacity and val(shown, "count") == capacity and instant(oldest) >= known:
            return known, instant(oldest), "rolled over" if instant(oldest) > known else "perhaps rolled over within one moment", None
        again = sum(moment(record) == self.at for record in page.data[:self.k])
        return (self.at, None, BACK, None) if again < self.k else None


class Tables:
    def __init__(self, words, url):
        self.base, self.url, self.known = psycopg.connect(autocommit=True, **words), url, {"record": set(), "alarm_event": set()}
        self.execute, self.transaction = self.base.execute, self.base.transaction

    def take(self):
        """Makes the tables where there are none, and takes the server for this connection; one whose machine is gone ends by itself."""
        self.execute("SET TIME ZONE 'UTC'; SET tcp_keepalives_idle = 60; SET tcp_keepalives_interval = 20")
        with self.transaction():
            self.execute("SELECT pg_advisory_xact_lock(%s, 0)", (LOCK,))
            if self.one("SELECT to_regclass('gap')")[0] is None:
                self.execute(TABLES.read_text())
            for table, column in (("place", "next"), ("gap", "lost")):             # tables of before have none
                if not self.one("SELECT count(*) FROM pg_attribute WHERE attrelid = %s::regclass AND attname = %s", (table, column))[0]:
                    self.execute(f"ALTER TABLE {table} ADD COLUMN {column} bigint")
            self.execute("INSERT INTO server (url, name) VALUES (%s, %s) ON CONFLICT DO NOTHING", (self.url, self.url))
        self.server, = self.one("SELECT id FROM server WHERE url = %s", (self.url,))
        if not self.one("SELECT pg_try_advisory_lock(%s, %s)", (LOCK, self.server))[0]:
            raise Refused("another historian stores this server")

    def one(self, query, words=()):
        return self.execute(query, words).fetchone()

    def many(self, query, rows):
        """Executes a query for each of some rows. How many rows it changed."""
        with self.base.cursor() as cursor:
            cursor.executemany(query, rows)
            return max(cursor.rowcount, 0)

    def close(self):
        self.base.close()

    def months(self, table, moments):
        """Makes the partitions of the months of moments, and of the months after them, which so are there before their first record.
        A table that is made apart and attached waits for no reader of the others."""
        wanted = {at.year * 12 + at.month - 1 + more for at in moments for more in (0, 1)} - self.known[table]
        for month in sorted(wanted):
            first, end = (f"{it // 12:04}-{it % 12 + 1:02}-01 00:00+00" for it in (month, month + 1))
            name = f"{table}_{first[:4]}_{first[5:7]}"
            with self.transaction():
                self.execute("SELECT pg_advisory_xact_lock(%s, 0)", (LOCK,))
                if self.one("SELECT to_regclass(%s)", (name,))[0] is None:
                    self.execute(f"CREATE TABLE {name} (LIKE {table} INCLUDING DEFAULTS INCLUDING CONSTRAINTS)")
                    self.execute(f"ALTER TABLE {table} ATTACH PARTITION {name} FOR VALUES FROM ('{first}') TO ('{end}')")
            self.known[table].add(month)

    def answers(self):
        self.execute("UPDATE server SET answered = now() WHERE id = %s", (self.server,))

    def join(self, boot, name, points):
        """Notes the run of a server, its name and its points."""
        found = self.one("SELECT run FROM run WHERE server = %s AND boot = %s", (self.server, boot))
        self.run, = found or self.one("INSERT INTO run SELECT %s, coalesce(max(run), 0) + 1, %s FROM run WHERE server = %s RETURNING run",
                                      (self.server, boot, self.server))
        self.boot, self.is_new = boot, found is None
        self.execute("UPDATE server SET (name, run, answered) = (%s, %s, now()) WHERE id = %s", (name, self.run, self.server))
        known = set(self.execute("SELECT path, name, kind, unit, low, high, writable FROM point WHERE server = %s", (self.server,)))
        self.many("INSERT INTO point VALUES (%s, %s, %s, %s, %s, %s, %s, %s) ON CONFLICT (server, path) DO UPDATE SET (name, kind, unit, low, "
                  "high, writable) = (EXCLUDED.name, EXCLUDED.kind, EXCLUDED.unit, EXCLUDED.low, EXCLUDED.high, EXCLUDED.writable)",
                  [(self.server, *it) for it in points if it not in known])

    def gap(self, path, since, until, why, lost):
        """Notes that something is missing, or may be; True where that is news."""
        return self.execute("INSERT INTO gap (server, path, run, since, until, why, lost) VALUES (%s, %s, %s, %s, %s, %s, %s) "
                            "ON CONFLICT DO NOTHING", (self.server, path, self.run, since, until, why, lost)).rowcount == 1

    def history(self, path, source):
        """The id of a history, its place in this run, and the last (at, k) that it was stored up to in any run; None where there is none."""
        id, = self.one("INSERT INTO history (server, path, source) VALUES (%s, %s, %s) ON CONFLICT (server, path) "
                       "DO UPDATE SET source = EXCLUDED.source RETURNING id", (self.server, path, source))
        return (id, self.one("SELECT at, k, careful, next FROM place WHERE history = %s AND run = %s", (id, self.run)),
                self.one("SELECT at, k FROM place WHERE history = %s AND k > 0 ORDER BY at DESC LIMIT 1", (id,)))

    def new_place(self, id, at, k):
        return self.one("INSERT INTO place VALUES (%s, %s, %s, %s) RETURNING at, k, careful, next", (id, self.run, at, k))

    def hold(self, histories):
        """Locks the places of histories, and looks that they are as they are held: the advisory lock ends where a connection does."""
        found = self.execute("SELECT history, at, k FROM place WHERE run = %s AND history = ANY(%s) ORDER BY history FOR UPDATE",
                             (self.run, [it.id for it in histories])).fetchall()
        if sorted(found) != sorted((it.id, it.at, it.k) for it in histories):
            raise Refused("another historian stores this server")

    def oldest(self, it):
        """The moment of the oldest stored record of a history in this run; None where its place is that of a run before."""
        return self.one("SELECT min(at) FROM record WHERE history = %s AND run = %s AND EXISTS (SELECT FROM record WHERE history = %s "
                        "AND run = %s AND at = %s AND k = %s)", (it.id, self.run, it.id, self.run, it.at, it.k - 1))[0]

    def records(self, new, careful, places):
        """Stores `new` records, those that may be there already, and the places (history, at, k, careful, next) that they lead to. How
        many weren't there."""
        with self.base.cursor().copy("COPY record FROM STDIN") as copy:
            for row in new:
                copy.write_row(row)
        stored = len(new) + self.many("INSERT INTO record VALUES (%s, %s, %s, %s, %s, %s) ON CONFLICT DO NOTHING", careful)
        self.many("UPDATE place SET (at, k, careful, next) = (%s, %s, %s, %s) WHERE history = %s AND run = %s", [(*it[1:], it[0], self.run) for it in places])
        return stored

    def waiting(self):
        """The number of the last alarm that is known, and those to which more can come."""
        last, = self.one("SELECT coalesce(max(n), 0) FROM alarm WHERE server = %s AND run = %s", (self.server, self.run))
        return last, [n for n, in self.execute("SELECT n FROM alarm WHERE server = %s AND run = %s AND state <> 'ok'", (self.server, self.run))]

    def raised(self, n):
        found = self.one("SELECT raised FROM alarm WHERE server = %s AND run = %s AND n = %s", (self.server, self.run, n))
        return found and found[0]

    def forget(self, last):
        """Forgets the alarms after a number, which come again; their events stay."""
        self.execute("DELETE FROM alarm WHERE server = %s AND run = %s AND n > %s", (self.server, self.run, last))

    def last_event(self):
        """The moment of the last event that is stored of the alarms of the server, in any run."""
        return self.one("SELECT max(at) FROM alarm_event WHERE server = %s", (self.server,))[0]

    def alarms(self, found):
        """Stores the events of alarms, and how the alarms stand. How many events are new."""
        rows = [(self.server, self.run, n, what, instant(at), *more) for it in found for n, what, at, *more in events(it)]
        self.months("alarm_event", [row[4] for row in rows])
        with self.transaction():
            new = self.many("INSERT INTO alarm_event VALUES (%s, %s, %s, %s, %s, %s, %s, %s) ON CONFLICT DO NOTHING", rows)
            first = [next(events(it)) for it in found]
            self.many("INSERT INTO alarm VALUES (%s, %s, %s, %s, %s, %s, %s) ON CONFLICT (server, run, n) DO UPDATE SET (source, value, raised, state) = "
                      "(EXCLUDED.source, EXCLUDED.value, EXCLUDED.raised, EXCLUDED.state)",
                      [(self.server, self.run, n, source, value, instant(at), state_of(it)) for it, (n, _, at, source, value, _) in zip(found, first)])
        return new
