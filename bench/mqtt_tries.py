"""The tries of bench/mqtt.sh."""
import bisect
import json
import os
import signal
import statistics
import subprocess
import sys
import threading
import time

import paho.mqtt.client as paho
from tries import LOST, TOP, Process, certificates, main, site, started, until

AWAY = "obix/plant/availability"
LATEST = [paho.CallbackAPIVersion.VERSION2] if hasattr(paho, "CallbackAPIVersion") else []


class Broker(Process):
    """A mosquitto, with a store or without one; `more` is of its listener."""

    def __init__(self, room, name, keeps=False, more=("allow_anonymous true",)):
        port, store = room.free_port(), room.folder / f"{name}.d"
        store.mkdir()
        lines = [f"listener {port} 127.0.0.1", *more, *(["user root"] if os.getuid() == 0 else [])]
        lines += ["persistence true", f"persistence_location {store}/", "autosave_interval 1", "autosave_on_changes true"] if keeps else []
        (room.folder / f"{name}.conf").write_text("\n".join(lines) + "\n")
        super().__init__(room, name, ["mosquitto", "-c", room.folder / f"{name}.conf"], port)


class Reader:
    """A client that hears all and knows what stands; without a broker it knows nothing, as Home Assistant does."""

    def __init__(self, port):
        self.held, self.events, self.refused, self.lock = {}, [], [], threading.Lock()
        self.client = paho.Client(*LATEST, client_id="", protocol=paho.MQTTv5)
        self.client.on_connect = lambda client, *_: client.subscribe([(it, paho.SubscribeOptions(qos=1)) for it in ("obix/#", "homeassistant/#")])
        self.client.on_message = lambda _, __, it: self.hear(it.topic, it.payload.decode())
        self.client.on_disconnect = lambda *_: self.held.clear()
        self.client.reconnect_delay_set(1, 1)
        self.client.connect("127.0.0.1", port)
        self.client.loop_start()

    def hear(self, topic, text):
        with self.lock:
            if topic.endswith(("/alarms", "/refused")):
                (self.events if topic.endswith("/alarms") else self.refused).append(json.loads(text))
            elif not topic.endswith("/set"):
                self.held[topic] = text

    def end(self):
        self.client.disconnect()
        self.client.loop_stop()

    def send(self, path, text, retain=False):
        self.client.publish(f"obix/plant/{path}/set", text, 1, retain)

    def stands(self, text):
        return self.held.get(AWAY) == text

    def points(self):
        """The values of p0, p1 .. as they stand here."""
        with self.lock:
            return {topic[11:]: json.loads(text)["val"] for topic, text in self.held.items() if topic.startswith("obix/plant/p") and text}


def values(server):
    return {it.get("name"): int(it.get("val")) for it in server.ask("GET", "") if (it.get("name") or "").startswith("p")}


def bridge(room, name, server, broker, *more):
    return room.tool(name, "mqtt.py", server.url, "--broker", f"127.0.0.1:{broker.port}", "--every", 0.2, *more)


def whole(room, name, points, keeps=False, more=()):
    """A server, a broker, a tool and a reader, once the reader hears `online`."""
    server, broker = room.server(name, site(points)), Broker(room, f"{name}-broker", keeps).start()
    tool, reader = bridge(room, f"{name}-tool", server, broker, *more), Reader(broker.port)
    room.judge(until(lambda: reader.stands("online") and len(reader.points()) == points, 120) is not None, f"{name}: online, with all points", tool.said())
    return server, broker, tool, reader


def ended(*programs):
    for it in programs:
        it.end() if isinstance(it, Reader) else it.kill()


def text_of(seconds):
    return "never" if seconds is None else f"{seconds:.2f} s"


def try_values(room):
    server, broker, tool, reader = whole(room, "values", 3)
    server.put("p0", 41)
    seen = until(lambda: reader.points().get("p0") == 41)
    room.judge(seen is not None, f"values: a change is seen after {text_of(seen)}, polls 0.2 s apart")
    reader.send("p1", "77")
    done = until(lambda: server.value("p1") == 77)
    room.judge(done is not None, f"values: a write is done after {text_of(done)}")
    for text in ("cold", "99999999999999999999", "", "5"):
        reader.send("p1", text, text == "5")
    reader.send("nothing", "1")
    until(lambda: len(reader.refused) == 5, 10)
    whys = {it["set"]: it["why"] for it in reader.refused}
    room.judge(len(whys) == 5 and whys["cold"] == "cold is no int" and whys["5"] == "it is retained" and whys["1"] == "no such point",
               "values: what isn't a value, is retained, or has no point is refused with the cause", whys)
    reader.send("p2", "null")
    room.judge(until(lambda: reader.points().get("p2", 0) is None, 10) is not None, "values: null is written and shown", reader.points())
    server.put("p2", 0)
    for value in (200, 2):
        server.put("m", value)
    server.acknowledge(1)
    until(lambda: len(reader.events) == 3, 10)
    room.judge([it["what"] for it in reader.events] == ["raised", "normal", "acked"], "values: an alarm is three events", reader.events)
    config = json.loads(next(text for topic, text in reader.held.items() if topic.startswith("homeassistant/number/") and "p1" in topic))
    room.judge(config["command_topic"] == "obix/plant/p1/set" and config["state_topic"] == "obix/plant/p1", "values: Home Assistant's message of p1", config)
    ended(tool, server, broker, reader)


def try_away(room):
    """The server is away for a while, and comes back as it was; then the tool is away."""
    server, broker, tool, reader = whole(room, "away", 3)
    server.put("p1", 77), server.put("m", 200)
    until(lambda: reader.events and reader.points().get("p1") == 77, 10)
    server.kill()
    down = until(lambda: reader.stands("offline"))
    heard = len(reader.refused)
    reader.send("p1", "79")
    until(lambda: len(reader.refused) > heard, 15)
    server.start()
    up = until(lambda: reader.stands("online"))
    room.judge(None not in (up, down) and server.value("p1") == 77 and len(reader.refused) == heard + 1,
               f"away: server killed: offline after {text_of(down)}, a write refused and never done; online {text_of(up)} after its start",
               reader.refused[heard:])
    time.sleep(1)
    room.judge(len(reader.events) == 1, "away: no event again after the server's start", reader.events)
    tool.kill()
    down = until(lambda: reader.stands("offline"), 5)
    room.judge(down is not None, f"away: tool killed: offline by its will after {text_of(down)}")
    server.put("m", 2), tool.start()
    room.judge(until(lambda: len(reader.events) == 3, 20) is not None and [it["what"] for it in reader.events] == ["raised", "raised", "normal"],
               "away: at its start the tool sends the events of an alarm that isn't done", reader.events)
    ended(tool, server, broker, reader)


def try_hang(room):
    """A server that takes connections and answers nothing, and a broker that does."""
    server, broker, tool, reader = whole(room, "hang", 3)
    server.run.send_signal(signal.SIGSTOP)
    down = until(lambda: reader.stands("offline"), 20)
    room.judge(down is not None and down < 6, f"hang: the server hangs: offline after {text_of(down)}")
    server.run.send_signal(signal.SIGCONT)
    room.judge(until(lambda: reader.stands("online"), 30) is not None, "hang: online when it goes on")
    tool.run.send_signal(signal.SIGSTOP)
    down = until(lambda: reader.stands("offline"), 30)
    room.judge(down is not None, f"hang: the tool hangs, or its network says nothing: offline by its will after {text_of(down)}")
    server.put("p0", 8)
    tool.run.send_signal(signal.SIGCONT)
    right = until(lambda: reader.stands("online") and reader.points().get("p0") == 8, 30)
    room.judge(right is not None, f"hang: right again {text_of(right)} after it goes on")
    for it in range(1, 101):
        reader.send("p1", str(it))
    until(lambda: server.value("p1") > 0, 10, 0)
    status = tool.kill(signal.SIGTERM)
    room.judge(status == 0 and until(lambda: reader.stands("offline"), 1) is not None, "hang: SIGTERM: status 0, and offline", status)
    time.sleep(0.2)
    done = server.value("p1")
    room.judge(sorted(int(it["set"]) for it in reader.refused) == list(range(done + 1, 101)),
               f"hang: of 100 writes {done} are done at SIGTERM, the others are refused", reader.refused)
    ended(server, broker, reader)


class Judge:
    """Rising values that are written, with the moment of each answer, and a reader that believes `online`."""

    def __init__(self, room, server, reader, points):
        self.room, self.server, self.reader, self.is_over, self.looks, self.old = room, server, reader, False, 0, []
        self.known = {f"p{n}": ([0.0], [0]) for n in range(points)}
        self.threads = started(lambda work: work(), (self.write, self.look))

    def write(self):
        value = 0
        while not self.is_over:
            value += 1
            name = self.room.chance.choice(list(self.known))
            try:
                self.server.put(name, value)
                for series, it in zip(self.known[name], (time.time(), value)):
                    series.append(it)
            except LOST:
                pass
            time.sleep(0.03)

    def look(self):
        while not self.is_over:
            with self.reader.lock:
                now, held = time.time(), dict(self.reader.held)
            if held.get(AWAY) == "online":
                self.looks += 1
                for name, (moments, values_) in self.known.items():
                    least, text = values_[bisect.bisect(moments, now - 3) - 1], held.get(f"obix/plant/{name}")
                    if text and json.loads(text)["val"] < least:
                        self.old.append((round(now, 2), name, text, least))
            time.sleep(0.05)

    def end(self):
        self.is_over = True
        for it in self.threads:
            it.join()


def try_kills(room, seconds=60):
    for keeps in (False, True):
        name = f"kills, the broker {'with' if keeps else 'without'} a store"
        server, broker, tool, reader = whole(room, f"kills-{keeps}", 20, keeps)
        judge, waits = Judge(room, server, reader, 20), []
        back = lambda _: waits.append(until(lambda: reader.stands("online") and len(reader.points()) == 20)) if room.chance.random() < 0.5 else None
        count = room.kills(seconds, (1, 3), (0, 3), back, broker=broker, server=server, tool=tool)
        judge.end()
        late = until(lambda: reader.stands("online") and reader.points() == values(server), 60)
        room.judge(late is not None, f"{name}: {count}; right at the end after {text_of(late)}", tool.said()[-500:])
        fresh = Reader(broker.port)
        right = until(lambda: fresh.points() == values(server) and fresh.stands("online"), 10)
        room.judge(right is not None, f"{name}: a new reader has all right after {text_of(right)}")
        room.judge(not judge.old, f"{name}: values older than 3 s under online: {len(judge.old)} in {judge.looks} looks under online", judge.old[:3])
        room.judge(None not in waits, f"{name}: online again after {max((it for it in waits if it), default=0):.1f} s at the most, in {len(waits)} of the kills")
        ended(tool, server, broker, reader, fresh)


def try_together(room):
    """Broker and tool are killed together, and the broker alone comes back: nothing that it has kept may look right."""
    server, broker, tool, reader = whole(room, "together", 3, True)
    time.sleep(3)
    broker.kill(), tool.kill()
    server.put("p0", 9)
    broker.start()
    fresh, was_online = Reader(broker.port), False
    end = time.monotonic() + 5
    while time.monotonic() < end:
        was_online |= fresh.stands("online")
        time.sleep(0.05)
    room.judge(not was_online, f"together: the broker comes back without the tool: {fresh.held.get(AWAY, 'nothing said')}, p0 {fresh.points().get('p0')} of 9")
    ended(server, broker, reader, fresh)


def try_secure(room):
    certificates(room.folder, "broker", "tool")
    for name, text in (("good", "se cret\n"), ("bad", "wrong\n")):
        (room.folder / name).write_text(text)
    (room.folder / "users").touch(mode=0o600)
    subprocess.run(["mosquitto_passwd", "-b", str(room.folder / "users"), "plant", "se cret"], check=True)
    tls = [f"certfile {room.folder}/broker.pem", f"keyfile {room.folder}/broker.key"]
    users = Broker(room, "users-broker", more=[*tls, "allow_anonymous false", f"password_file {room.folder / 'users'}"]).start()
    signed = Broker(room, "signed-broker", more=[*tls, f"cafile {room.folder}/ca.pem", "require_certificate true", "allow_anonymous true"]).start()
    server = room.server("secure", site(3))
    good, bad = (("--user", "plant", "--password-file", room.folder / it) for it in ("good", "bad"))
    ca, own = ("--ca", room.folder / "ca.pem"), ("--cert", room.folder / "tool.pem", "--key", room.folder / "tool.key")
    for number, (text, broker, wanted, *words) in enumerate((
            ("user and password by TLS", users, "connected", *ca, *good),
            ("a wrong password", users, "Not authorized", *ca, *bad),
            ("no user", users, "Not authorized", *ca),
            ("an authority that isn't known", users, "certificate verify failed", "--tls", *good),
            ("no TLS", users, "it ends the connection", *good),
            ("a certificate of the tool's own", signed, "connected", *ca, *own),
            ("no certificate, where one is asked for", signed, "certificate required", *ca))):
        tool = bridge(room, f"secure-{number}", server, broker, *words)
        told = until(lambda: wanted in tool.said() and "live" in tool.said(), 30)
        time.sleep(1)
        room.judge(told is not None and ("connected" in tool.said()) == (wanted == "connected"), f"secure: {text}: {wanted}", tool.said())
        status = tool.kill(signal.SIGTERM)
        room.judge(status == 0 and "Traceback" not in tool.said(), f"secure: {text}: SIGTERM, status 0", (status, tool.said()))
    ended(server, users, signed)


def try_left(room):
    """What an earlier run left at the broker, and is no point of this site any more, is taken away; so is what others retain there."""
    server, broker, tool, reader = whole(room, "left", 4)
    tool.kill(), server.kill()
    server.site.write_text(site(2))
    other = room.server("other", site(2))
    again = bridge(room, "left-again", other, broker)
    gone = lambda: sorted(topic for topic, text in reader.held.items() if text and ("p2" in topic or "p3" in topic))
    room.judge(until(lambda: reader.stands("online") and not gone(), 20) is not None,
               "left: points that aren't there any more are taken away, and their messages", gone())
    room.judge(set(reader.points()) >= {"p0", "p1"} and len([it for it in reader.held if it.startswith("homeassistant/") and reader.held[it]]) == 4,
               "left: the others stay", sorted(reader.held))
    reader.client.publish("obix/plant/foreign", "1", 1, True)
    room.judge(until(lambda: reader.held.get("obix/plant/foreign") == "", 10) is not None, "left: what another client retains below the base is taken away")
    ended(again, other, broker, reader)


def try_line(room):
    tool, url = [sys.executable, str(TOP / "tools/mqtt.py")], "http://127.0.0.1:1/obix/"
    for status, *words in ((2,), (2, url), (2, "ftp://h/", "--broker", "h"), (2, url, "--broker", "h:x"), (2, url, "--broker", "u:p@h"),
                           (2, url, "--broker", "h", "--name", "a/b"), (2, url, "--broker", "h", "--password-file", "f"), (2, url, "--broker", "h", "--every", "0"),
                           (3, url, "--broker", "h", "--user", "u", "--password-file", "/nothing"), (3, url, "--broker", "h", "--ca", "/nothing"),
                           (3, url, "--broker", "h", "--cert", "/dev/null"), (0, "--help")):
        run = subprocess.run(tool + words, capture_output=True, text=True, timeout=60)
        room.judge(run.returncode == status and "Traceback" not in run.stderr, f"line: status {status} of {words}", (run.returncode, run.stderr))


def try_speed(room, count=1000, turns=10):
    began = time.monotonic()
    server, broker, tool, reader = whole(room, "speed", count)
    print(f"speed: {count} points with Home Assistant's messages are online {time.monotonic() - began:.1f} s after the start of all", flush=True)
    took, before, topics = [], tool.processor(), [f"obix/plant/p{n}" for n in range(count)]
    for turn in range(1, turns + 1):
        items = "".join(f'<uri is="obix:Write" val="/obix/p{n}"><int name="in" val="{turn}"/></uri>' for n in range(count))
        server.ask("POST", "batch", f"<list>{items}</list>", 30)
        text = f'{{"val": {turn}, "status": "ok"}}'
        took.append(until(lambda: all(reader.held.get(it) == text for it in topics), 60, 0.005))
    if room.judge(None not in took, f"speed: {count} changes of one batch are all seen"):
        middle = statistics.median(took)
        print(f"speed: {count} changes at once are seen after {middle:.2f} s (the median of {turns}, polls 0.2 s apart): {count / middle:.0f} points a second; "
              f"{(tool.processor() - before) / turns / count * 1e6:.0f} microseconds of the tool's processor a point", flush=True)
    waits = []
    for it in range(50):
        reader.send("p1", str(1000 + it))
        waits.append(until(lambda: reader.held["obix/plant/p1"] == f'{{"val": {1000 + it}, "status": "ok"}}', 10, 0.002))
    room.judge(None not in waits, "speed: each write is seen as the point's value")
    waits = sorted(it * 1000 for it in waits if it)
    print(f"speed: a write is seen as the point's value after {statistics.median(waits):.0f} ms (the median of 50), {waits[-1]:.0f} ms at the most")
    ended(tool, server, broker, reader)


sys.exit(main("mqtt", {it.partition("_")[2]: globals()[it] for it in (
    "try_values", "try_away", "try_hang", "try_kills", "try_together", "try_secure", "try_left", "try_line", "try_speed")}))
