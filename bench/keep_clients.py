"""The clients of bench/keep.sh that a server is killed under: each asks about points of its own, and has a model of what it was
answered. All traffic is on 127.0.0.1."""
import copy
import http.client
import random
import threading
import xml.etree.ElementTree as ET
from datetime import datetime, timedelta, timezone

LOW, HIGH = 0, 100   # the limits of the rule
CAPACITY = 50        # how many records a history keeps
ALARMS = 2           # how many alarms a client raises at most between two kills
POINTS = ("plain", "logged", "limited")
TIME = 120           # how long a client waits for an answer, in seconds
GONE = ("obix:BadUriErr", "no such object")


def site(clients):
    """A site file with three points for each client: a plain one, one with a history, and one with an alarm rule."""
    points, rules = "", ""
    for k in range(clients):
        for name in POINTS:
            points += f'<int href="c{k}/{name}" val="0" writable="true"/>'
        points += f'<obj href="c{k}/history" is="obix:History"><ref name="source" href="c{k}/logged"/><int name="capacity" val="{CAPACITY}"/></obj>'
        rules += (f'<obj><ref name="source" href="c{k}/limited"/><int name="low" val="{LOW}"/><int name="high" val="{HIGH}"/>'
                  '<bool name="needsAck" val="true"/></obj>')
    subject = f'<obj href="alarms" is="obix:AlarmSubject"><list name="rules">{rules}</list></obj>'
    return f'<obj href="http://h/obix/" is="obix:Lobby">{points}{subject}</obj>'


def answer(link, verb, path, body=None):
    """The root of the whole answer to one request."""
    link.request(verb, path, body, {"Content-Type": "text/xml"} if body else {})
    reply = link.getresponse()
    text = reply.read()
    if reply.getheader("Content-Length") is None:   # the head was cut short
        raise http.client.IncompleteRead(text)
    if reply.status != 200:
        raise AssertionError(f"{verb} {path} had status {reply.status}")
    return ET.fromstring(text)


def child(root, name, attribute="val"):
    return next((it.get(attribute) for it in root if it.get("name") == name), None)


def items(root, name):
    """The items of a list that is a child of an answer."""
    return list(next(it for it in root if it.get("name") == name))


class Numbers:
    """The numbers of watches that were given: none is given again."""

    def __init__(self):
        self.lock, self.given, self.before = threading.Lock(), set(), 0

    def restart(self):
        self.before = max(self.given, default=0)

    def take(self, number):
        with self.lock:
            again = number in self.given or number <= self.before
            self.given.add(number)
        if again:
            raise AssertionError(f"watch {number} was given again")


class State:
    """What a client's points, its history and its alarms are."""

    def __init__(self):
        self.values, self.records, self.alarms = dict.fromkeys(POINTS, 0), [], []

    def __eq__(self, other):
        return (self.values, self.records, self.alarms) == (other.values, other.records, other.alarms)

    def __str__(self):
        return f"{self.values} records {self.records[-3:]} alarms {self.alarms[-3:]}"

    def write(self, point, value):
        if self.values[point] == value:
            return
        self.values[point] = value
        if point == "logged":
            self.records = [*self.records, value][-CAPACITY:]
        if point == "limited":
            stands = bool(self.alarms) and not self.alarms[-1]["ended"]
            outside = not LOW <= value <= HIGH
            if outside and not stands:
                self.alarms.append({"value": value, "ended": False, "user": None})
            if stands and not outside:
                self.alarms[-1]["ended"] = True

    def acknowledge(self, place, user):
        if self.alarms[place]["user"] is None:
            self.alarms[place]["user"] = user

    def apply(self, changes):
        for change, *words in changes:
            getattr(self, change)(*words)

    def with_changes(self, changes):
        after = copy.deepcopy(self)
        after.apply(changes)
        return after

    def status(self):
        """That of the point with the rule."""
        open_ones = [it["user"] is None for it in self.alarms if not it["ended"]]
        if open_ones:
            return "unackedAlarm" if open_ones[0] else "alarm"
        return "unacked" if any(it["user"] is None for it in self.alarms) else "ok"

    def shown(self):
        return {name: (str(value), self.status() if name == "limited" else None) for name, value in self.values.items()}


class Client:
    """One client, with what it was answered, and the changes of the one request that wasn't."""

    def __init__(self, number, numbers):
        self.number, self.numbers, self.draw = number, numbers, random.Random(number)
        self.state, self.pending, self.count, self.seen = State(), [], 0, {}
        self.known, self.watch, self.marked, self.raised = [], None, set(), 0
        self.old_watches, self.fault = [], None
        self.writes, self.done, self.undone = 0, 0, 0

    def at(self, point):
        return f"/obix/c{self.number}/{point}"

    def next_value(self):
        self.count += 1
        return 1_000 + self.count

    def must(self, found, wanted, what):
        if found != wanted:
            raise AssertionError(f"client {self.number}: {what} is {found}, and has to be {wanted}")

    # ---- what it asks

    def ask(self, link, verb, path, body=None, changes=()):
        """One request. Its changes wait until it is answered."""
        self.pending, before = changes, self.state.shown()
        root = answer(link, verb, path, body)
        self.state.apply(changes)
        self.pending, self.writes = (), self.writes + bool(changes)
        after = self.state.shown()
        self.marked |= {name for name in after if after[name] != before[name]}
        return root

    def must_show(self, root, point):
        self.must((root.get("val"), root.get("status")), self.state.shown()[point], f"the answer about {point}")

    def put(self, link, point, value):
        root = self.ask(link, "PUT", self.at(point), f'<int val="{value}"/>', [("write", point, value)])
        self.must_show(root, point)

    def batch(self, link):
        writes = [("write", point, self.next_value()) for point in ("plain", "logged")]
        writes.append(("write", "limited", self.draw.randint(LOW, HIGH)))
        rows = "".join(f'<uri is="obix:Write" val="{self.at(point)}"><int name="in" val="{value}"/></uri>' for _, point, value in writes)
        root = self.ask(link, "POST", "/obix/batch", f"<list>{rows}</list>", writes)
        self.must(len(root), len(writes), "the number of a batch's answers")
        for item, (_, point, _) in zip(root, writes):
            self.must_show(item, point)

    def raise_or_end(self, link):
        stands = self.state.alarms and not self.state.alarms[-1]["ended"]
        if not stands and self.raised == ALARMS:
            return
        self.raised += not stands
        self.put(link, "limited", self.draw.randint(LOW, HIGH) if stands else self.next_value())

    def acknowledge(self, link):
        """The newest alarm that isn't acknowledged. The alarm subject tells its number."""
        place = next((k for k in reversed(range(len(self.state.alarms))) if self.state.alarms[k]["user"] is None), None)
        if place is None:
            return
        if place >= len(self.known):
            start = (datetime.now(timezone.utc) - timedelta(minutes=10)).isoformat(timespec="milliseconds").replace("+00:00", "Z")
            root = self.ask(link, "POST", "/obix/alarms/query", f'<obj><abstime name="start" val="{start}"/></obj>')
            self.learn(alarms_of(items(root, "data"), self.at("limited")))
        user = f"user {self.number}.{self.count}"
        root = self.ask(link, "POST", f"/obix/alarm/{self.known[place]}/ack", f'<obj><str name="ackUser" val="{user}"/></obj>',
                        [("acknowledge", place, user)])
        self.must(child(root[0], "ackUser"), user, "who acknowledged")

    def get(self, link):
        point = self.draw.choice(POINTS)
        self.must_show(self.ask(link, "GET", self.at(point)), point)

    def poll(self, link):
        """Makes a watch of the three points where it has none, and else polls it."""
        if self.watch is None:
            self.watch = int(self.ask(link, "POST", "/obix/watchService/make").get("href").split("/")[3])
            self.numbers.take(self.watch)
            rows = "".join(f'<uri val="{self.at(point)}"/>' for point in POINTS)
            root, told = self.ask(link, "POST", f"/obix/watch/{self.watch}/add", f'<obj><list name="hrefs">{rows}</list></obj>'), POINTS
        else:
            told = [point for point in POINTS if point in self.marked]
            root = self.ask(link, "POST", f"/obix/watch/{self.watch}/pollChanges")
        self.marked = set()
        values = items(root, "values")
        self.must([it.get("href") for it in values], [self.at(point) for point in told], "what a watch tells")
        for item, point in zip(values, told):
            self.must_show(item, point)

    def delete(self, link):
        if self.watch is not None:
            self.ask(link, "POST", f"/obix/watch/{self.watch}/delete")
            self.watch = None

    def step(self, link):
        kind = self.draw.randrange(20)
        if kind < 8:
            self.put(link, self.draw.choice(("plain", "logged")), self.next_value())
        else:
            (self.batch, self.batch, self.raise_or_end, self.raise_or_end, self.acknowledge, self.acknowledge,
             self.get, self.get, self.poll, self.poll, self.poll, self.delete)[kind - 8](link)

    def run(self, port, over):
        """Asks until the server is gone. Before `over` is set, each end of the connection is a fault."""
        try:
            link = http.client.HTTPConnection("127.0.0.1", port, timeout=TIME)
            while True:
                self.step(link)
        except (OSError, http.client.HTTPException) as fault:
            if not over.is_set():
                self.fault = f"client {self.number}: {fault!r}"
        except Exception as fault:
            self.fault = f"client {self.number}: {fault!r}"

    # ---- what it looks at behind a restart

    def same(self, what, found):
        """What was seen once stays."""
        if found is not None:
            self.must(found, self.seen.setdefault(what, found), f"the time of {what}")

    def learn(self, alarms):
        """The numbers of its alarms, the first being that of its first."""
        last = self.known[-1] if self.known else 0
        self.known += [number for number, _ in alarms if number > last]

    def questions(self):
        """What is asked behind a restart: its points, its history, and polls of watches from before it."""
        if self.watch is not None:
            self.old_watches.append(self.watch)
            self.watch = None
        polled = {*self.old_watches[-1:], *self.draw.sample(self.old_watches, min(1, len(self.old_watches)))}
        return ([("GET", self.at(point)) for point in POINTS] + [("POST", self.at("history") + "/query")]
                + [("POST", f"/obix/watch/{number}/pollChanges") for number in polled])

    def found(self, points, history, alarms):
        """Its state as the server shows it."""
        shown = State()
        shown.values = {name: int(root.get("val")) for name, root in zip(POINTS, points)}
        for record in items(history, "data"):
            shown.records.append(int(child(record, "value")))
            self.same(f"record {shown.records[-1]}", child(record, "timestamp"))
        for number, alarm in alarms:
            shown.alarms.append({"value": int(child(alarm, "alarmValue")), "ended": child(alarm, "normalTimestamp") is not None,
                                 "user": child(alarm, "ackUser")})
            for name in ("timestamp", "normalTimestamp", "ackTimestamp"):
                self.same(f"alarm {number}'s {name}", child(alarm, name))
        return shown

    def look(self, answers, all_alarms):
        """All that was acknowledged is there, with the one request that wasn't answered or without it; and no watch is."""
        points, history, polls = answers[:len(POINTS)], answers[len(POINTS)], answers[len(POINTS) + 1:]
        alarms = alarms_of(all_alarms, self.at("limited"))
        shown, further = self.found(points, history, alarms), self.state.with_changes(self.pending)
        if shown not in (self.state, further):
            raise AssertionError(f"client {self.number}: found {shown}; acknowledged {self.state}; asked besides {self.pending}")
        if self.pending and further != self.state:
            self.done, self.undone = (self.done + 1, self.undone) if shown == further else (self.done, self.undone + 1)
        self.state, self.pending, self.raised, self.known = shown, (), 0, []
        self.learn(alarms)
        for root in polls:
            self.must((root.get("is"), root.get("display")), GONE, "the answer to a poll of a watch of before")


def alarms_of(alarms, source):
    """The number of each alarm of a source, and the alarm."""
    return [(int(it.get("href").split("/")[3]), it) for it in alarms if child(it, "source", "href") == source]
