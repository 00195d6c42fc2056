#!/usr/bin/env python3
"""The points and alarms of an oBIX server at an MQTT broker, and writes from there. Home Assistant finds the points by itself.

    tools/mqtt.py http://127.0.0.1:8080/obix/ --broker 127.0.0.1 --name plant

  obix/plant/boiler/flow              {"val": 71.5, "status": "ok"} of the point /obix/boiler/flow: retained, as it changes
  obix/plant/boiler/setpoint/set      takes a value as text and writes it at once; null writes null, but to a text
  obix/plant/boiler/setpoint/refused  {"set": "99", "why": "above max"}, where it wasn't written
  obix/plant/alarms                   {"alarm": "/obix/alarm/1/", "what": "raised", ..}, then "normal" and "acked": events
  obix/plant/availability             online: all values are right; said every 3 seconds, never retained. offline: retained
  homeassistant/../config             what Home Assistant needs of each point; --discovery '' leaves it out

Online is never retained: what a broker comes back with doesn't look right, and a new reader waits for online, 3 seconds at most.
No write is kept: while the server is away it is refused, while this tool is away it is lost, and a retained one is refused.
Whatever else is retained below obix/plant/ is taken away. This tool stands beside the proved program, and isn't proved. It needs
broker.py, homeassistant.py, plant.py, follow.py and link.py beside it, and python3-paho-mqtt.

status 0: ended by Ctrl-C or SIGTERM, with offline said and the watch deleted. 1: there is no paho, or a part of the tool failed.
2: the words are no command. 3: a file of the line can't be used.
"""
import argparse
import json
import queue
import re
import signal
import sys
import threading
import time
import urllib.parse

from broker import MISSING, Broker, Unusable, add_options, address
from homeassistant import config, id_of
from plant import LOST, Plant, Refused, words

SAID, OLD = 3, 10                            # seconds until online is said again, until a write is too old
MOST, LONGEST = 1000, 100_000                # writes that wait, bytes of one
TEXTS = ("str", "uri", "enum")
FORMS = {"bool": "true|false", "int": r"-?(0|[1-9]\d*)", "real": r"-?(0|[1-9]\d*)(\.\d+)?"}        # that JSON has as well


def message_of(point):
    """A point's value and status as JSON. A number has the digits of the server; what JSON has no form for is a text."""
    val, form = point["val"], FORMS.get(point["kind"])
    is_plain = val is not None and form and re.fullmatch(form, val)
    return f'{{"val": {val if is_plain else json.dumps(val, ensure_ascii=False)}, "status": {json.dumps(point["status"])}}}'


class Bridge:
    def __init__(self, plant, given, log):
        self.plant, self.base, self.discovery = plant, f"{given.prefix}/{given.name}", given.discovery
        self.node, self.root = id_of(self.base), urllib.parse.urlsplit(plant.url).path
        self.feed, self.available = f"{self.base}/alarms", f"{self.base}/availability"
        self.writes, self.is_ending = queue.SimpleQueue(), False
        self.topics, self.shown, self.points, self.facets, self.alarms, self.events = {}, {}, {}, {}, {}, None     # as they were said last
        self.whole, self.stands, self.said, self.last = None, None, 0.0, 0.0
        self.broker = Broker(given, self.available, self.came, self.heard, log)

    # the thread of the broker's connection

    def came(self):
        self.stands = None
        self.broker.listen([f"{self.base}/#"], False)
        with self.plant.news:
            self.plant.news.notify_all()

    def heard(self, topic, text, is_retained):
        is_write = topic.endswith("/set")
        if is_retained and text and (is_write or self.whole and topic not in self.shown and topic != self.available):
            self.broker.send(topic, b"", True)             # a write that is kept, or a point that isn't there any more
        if is_write and (text or not is_retained):         # a retained one without a text takes one away
            self.last = time.monotonic()
            ends, is_long, is_full = self.is_ending, len(text) > LONGEST, self.writes.qsize() >= MOST
            if is_retained or ends or is_long or is_full:
                why = "it is retained" if is_retained else "the tool ends" if ends else "it is too long" if is_long else "too many writes"
                return self.refuse(topic, text, why)
            self.writes.put((time.monotonic(), topic, text))

    def refuse(self, topic, text, why):
        told = json.dumps({"set": text[:200].decode(errors="replace"), "why": why}, ensure_ascii=False)
        self.broker.send(f"{topic[:-4]}/refused", told, qos=1)

    # the thread of writes

    def write_on(self):
        for since, topic, text in iter(self.writes.get, None):
            try:
                if self.is_ending or time.monotonic() - since > OLD:
                    raise Refused("the tool ends" if self.is_ending else f"it waited {OLD} seconds")
                self.write(self.topics.get(topic[:-4]), text.decode())
            except Refused as fault:
                self.refuse(topic, text, str(fault))
            except UnicodeDecodeError:
                self.refuse(topic, text, "it is no UTF-8")
            except ConnectionRefusedError:
                self.refuse(topic, text, "the server doesn't answer")
            except LOST as fault:
                self.refuse(topic, text, f"its answer was lost, so it may have been done: {words(fault)}")

    def write(self, key, text):
        if self.plant.head["state"] != "live":
            raise Refused("the server doesn't answer")
        if key not in self.plant.points:
            raise Refused("no such point")
        self.plant.write(key, None if text == "null" and self.plant.points[key]["kind"] not in TEXTS else text)

    # the main thread

    def named(self, points):
        """The topic of each point: its path below the lobby's; a part without an href is named below its owner. Where that is taken,
        or means something else, a _ follows."""
        topics = {}
        for key in points:
            path = key[len(self.root):] if key.startswith(self.root) else key
            sent = re.sub(r"[+#$\0]|[^\x20-\x7e]", lambda it: "/" if it[0] == "#" else urllib.parse.quote(it[0]), path.strip("/"))
            topic = f"{self.base}/{sent}"
            while topic in topics or topic in (self.feed, self.available) or topic.endswith(("/set", "/refused")):
                topic += "_"
            topics[topic] = key
        return topics

    def turn(self):
        """Says what is new since the last turn, and then that all is right; all of it for a new connection or a new watch."""
        with self.plant.news:
            points, alarms, head, joined = dict(self.plant.points), dict(self.plant.alarms), dict(self.plant.head), self.broker.joined
        if head["state"] != "live" or time.monotonic() - self.plant.answered > SAID + self.plant.every:
            return self.stand("offline")
        if self.whole is None or self.whole[0] != joined:
            self.stand("offline")
            self.whole, self.shown = None, {}              # the broker may have lost or kept anything
        is_whole = self.whole != (joined, head["epoch"]) or points.keys() != self.points.keys()
        if is_whole:
            self.topics = self.named(points)
        texts = {}
        for topic, key in self.topics.items():
            if is_whole or points[key] is not self.points.get(key):
                texts[topic], facets = message_of(points[key]), {**points[key], "val": None, "status": None, "display": None}
                if self.discovery and (is_whole or facets != self.facets.get(key)):
                    place, text = config(facets, topic, self.available, self.node, head["title"])
                    texts[f"{self.discovery}/{place}"], self.facets[key] = text, facets
        self.show({**dict.fromkeys({*self.shown} - {*texts} if is_whole else (), ""), **texts})
        self.tell(alarms)
        is_first, self.points, self.whole = self.whole is None, points, (joined, head["epoch"])
        if is_first:                                       # what an earlier run left there comes now
            self.broker.listen([f"{self.base}/#"] + ([f"{self.discovery}/+/{self.node}/+/config"] if self.discovery else []), True)
        if self.broker.is_joined and self.broker.joined == joined:
            self.stand("online")

    def show(self, texts):
        """Retains each text that isn't there; an empty one takes its topic away."""
        for topic, text in texts.items():
            if self.shown.get(topic) != text:
                self.broker.send(topic, text, True)
                self.shown[topic] = text
            if not text:
                del self.shown[topic]

    def tell(self, alarms):
        """What is new of the alarms. At the start of the tool: all that is known of those that are open."""
        is_first, self.events = self.events is None, self.events or set()
        for key, alarm in (it for it in alarms.items() if it[1] is not self.alarms.get(it[0])):
            for what, at in (("raised", alarm["at"]), ("normal", alarm["over"]), ("acked", alarm["acked"])):
                if at and (key, what, at) not in self.events and not (is_first and alarm["state"] == "ok"):
                    parts = {it: alarm[it] for it in ("source", "val", "state", "user", "at", "over", "acked")}
                    self.broker.send(self.feed, json.dumps({"alarm": key, "what": what, **parts}, ensure_ascii=False), qos=1)
                self.events.add((key, what, at))
        self.alarms = alarms

    def stand(self, text):
        if text != self.stands or time.monotonic() - self.said >= SAID:
            self.broker.send(self.available, text, text == "offline")
            self.stands, self.said = text, time.monotonic()

    def run(self, threads):
        seen = None
        while all(it.is_alive() for it in threads):
            with self.plant.news:
                pause = max(0.05, min(1, self.said + SAID - time.monotonic()))
                self.plant.news.wait_for(lambda: (self.plant.version, self.broker.joined) != seen, pause)
                seen = self.plant.version, self.broker.joined
            if self.broker.is_joined:
                self.turn()

    def end(self, writer):
        """The write that is under way is done, offline is said, and the writes that wait here and at the broker are refused."""
        self.is_ending = True
        self.writes.put(None)
        writer.join(OLD)
        self.broker.send(self.available, "offline", True)
        until = time.monotonic() + SAID
        while time.monotonic() < min(until, self.last + 0.3):
            time.sleep(0.05)
        self.broker.end(self.available, "offline")


def line():
    asked = argparse.ArgumentParser(description=__doc__, formatter_class=argparse.RawDescriptionHelpFormatter)
    asked.add_argument("url", help="the lobby, as http://127.0.0.1:8080/obix/")
    add_options(asked)
    asked.add_argument("--name", default="plant", help="the second word of each topic: which server it is (%(default)s)")
    asked.add_argument("--prefix", default="obix", help="the first word (%(default)s)")
    asked.add_argument("--discovery", default="homeassistant", metavar="TOPIC", help="where Home Assistant looks (%(default)s)")
    asked.add_argument("--every", type=float, default=1.0, metavar="SECONDS", help="between two polls of the server (%(default)s)")
    given = asked.parse_args()
    if not address(given) or not re.match("https?://[^/]", given.url):
        asked.error("wanted are an http URL, HOST or HOST:PORT of the broker, --user with --password-file, --cert with --key")
    if not all(re.fullmatch("[^+#/$]+", it) for it in (given.name, given.prefix)) or re.search("[+#$]", given.discovery) or given.every <= 0:
        asked.error("wanted are a name and a prefix without + # / $, a topic of discovery without + # $, and seconds above 0")
    return given


def main():
    given = line()
    if MISSING:
        print(f"mqtt: {MISSING}", file=sys.stderr)
        return 1
    log = lambda text: print(time.strftime("%Y-%m-%dT%H:%M:%S"), text, flush=True)
    plant = Plant(given.url, given.every, log, seen=0)     # no trend is asked of it
    try:
        bridge = Bridge(plant, given, log)
    except Unusable as fault:
        print(f"mqtt: {fault}", file=sys.stderr)
        return 3
    threads = [threading.Thread(target=it, daemon=True) for it in (plant.run, bridge.write_on)]
    for it in threads:
        it.start()
    for number in (signal.SIGTERM, signal.SIGINT):
        signal.signal(number, lambda *_: sys.exit(0))
    try:
        bridge.broker.client.loop_start()
        bridge.run(threads)
    finally:
        signal.signal(signal.SIGTERM, signal.SIG_IGN)
        bridge.end(threads[1])
        plant.end()
    print("mqtt: a part of it has ended", file=sys.stderr)
    return 1


if __name__ == "__main__":
    sys.exit(main())
