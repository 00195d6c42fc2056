"""The tries of bench/exporter.sh. All traffic is on 127.0.0.1; each program that is started is ended."""
import argparse
import json
import re
import shutil
import signal
import socket
import subprocess
import sys
import tempfile
import threading
import time
import urllib.parse
import urllib.request
from pathlib import Path

TOP = Path(__file__).resolve().parent.parent
failed = 0


def judge(holds, text, more=""):
    global failed
    failed += not holds
    print(f"{text}: {'as it must be' if holds else f'otherwise {more}'}", flush=True)


class Room:
    """A folder, ports, and the programs that run."""

    def __init__(self, program, first):
        self.program, self.next, self.runs = program, first, []
        self.folder = Path(tempfile.mkdtemp(prefix="obix-exporter."))

    def port(self):
        if self.next:
            self.next += 1
            return self.next - 1
        with socket.socket() as free:
            free.bind(("127.0.0.1", 0))
            return free.getsockname()[1]

    def start(self, name, *words):
        out, err = (open(self.folder / f"{name}.{it}", "wb") for it in ("out", "err"))
        run = subprocess.Popen([str(it) for it in words], stdout=out, stderr=err)
        self.runs.append(run)
        return run

    def serve(self, site, port):
        run = self.start("obix", self.program, "serve", site, "127.0.0.1", port, "--workers", 8, "--quota", 100000)
        wait(lambda: b"listening" in (self.folder / "obix.out").read_bytes())
        return run

    def export(self, url, *words):
        port = self.port()
        run = self.start(f"exporter{port}", sys.executable, TOP / "tools" / "exporter.py", url, "--listen", f"127.0.0.1:{port}", *words)
        wait(lambda: b"/metrics" in (self.folder / f"exporter{port}.err").read_bytes())
        return run, port

    @staticmethod
    def stop(run):
        run.kill()
        run.wait()

    def end(self):
        for run in self.runs:
            self.stop(run)
        if not failed:
            shutil.rmtree(self.folder)


def wait(holds, seconds=30):
    end = time.monotonic() + seconds
    while time.monotonic() < end:
        if holds():
            return True
        time.sleep(0.1)
    return False


def ask(url, body=None, verb=None):
    data, fields = None if body is None else body.encode(), {"Content-Type": "text/xml", "Connection": "close"}
    request = urllib.request.Request(url, data, fields, method=verb)
    with urllib.request.urlopen(request, timeout=20) as reply:
        return reply.read().decode()


def put(root, path, body):
    return ask(root + path, body, "PUT")


def scrape(port):
    return ask(f"http://127.0.0.1:{port}/metrics")


def sample(text, metric):
    """The number of a sample, by its name and the beginning of its labels."""
    found = re.search(f"^{re.escape(metric)}[^ ]*.* ([^ ]+)$", text, re.M)
    return float(found[1]) if found else None


def query(port, text):
    """The value of a query by the HTTP API of Prometheus, where it gives one sample."""
    try:
        found = json.loads(ask(f"http://127.0.0.1:{port}/api/v1/query?query={urllib.parse.quote(text)}"))["data"]["result"]
        return float(found[0]["value"][1]) if len(found) == 1 else None
    except OSError:
        return None


def is_clean(text):
    run = subprocess.run(["promtool", "check", "metrics"], input=text, capture_output=True, text=True)
    return run.returncode == 0 and not run.stderr and not run.stdout


def try_prometheus(room):
    port = room.port()
    root, server = f"http://127.0.0.1:{port}", room.serve(TOP / "examples" / "heating-plant.xml", port)
    exporter, metrics = room.export(f"{root}/obix/")
    judge(is_clean(scrape(metrics)), "promtool check metrics, with a server")
    (room.folder / "prometheus.yml").write_text("global: {scrape_interval: 1s, scrape_timeout: 1s}\nscrape_configs:\n"
                                                f"- job_name: obix\n  static_configs: [{{targets: ['127.0.0.1:{metrics}']}}]\n")
    api = room.port()
    prometheus = room.start("prometheus", "prometheus", f"--config.file={room.folder}/prometheus.yml",
                            f"--storage.tsdb.path={room.folder}/data", f"--web.listen-address=127.0.0.1:{api}")
    gives = lambda text, value, seconds=30: wait(lambda: query(api, text) == value, seconds)
    judge(gives("obix_up", 1, 60), "Prometheus scrapes the exporter")
    for path, body, text, value in (
            ("boiler/setpoint", '<real val="71.25"/>', 'obix_point_celsius{path="/obix/boiler/setpoint",display_name="Setpoint"}', 71.25),
            ("pump1/speed", '<int val="37"/>', 'obix_point_ratio{path="/obix/pump1/speed"}', 0.37),
            ("pump2/running", '<bool val="true"/>', 'obix_point_bool{path="/obix/pump2/running"}', 1),
            ("boiler/mode", '<enum val="night"/>', 'obix_point_state{path="/obix/boiler/mode",state="night"}', 1),
            ("pump1/speed", '<int null="true"/>', 'count(obix_point_ratio)', 1)):
        put(root, f"/obix/{path}", body)
        judge(gives(text, value), f"{text} is {value}, which was put", f": {query(api, text)}")
    return server, root, port, exporter, metrics, prometheus, api, gives


def try_restarts(room, server, root, port, metrics, api, gives):
    """The server goes away and comes back; meanwhile a client of its own makes the watch of the number that ours had."""
    room.stop(server)
    judge(gives("obix_up", 0), "obix_up is 0 while there is no server")
    judge(gives("count(obix_point_celsius) or vector(0)", 0), "and there are no points")
    judge(is_clean(scrape(metrics)), "promtool check metrics, without a server")
    server = room.serve(TOP / "examples" / "heating-plant.xml", port)
    judge(gives("obix_up", 1), "obix_up is 1 after the restart")
    judge(gives('obix_point_celsius{path="/obix/boiler/setpoint"}', 70), "and the setpoint is that of the site file again")
    judge(gives("obix_watches_made_total", 2), "by a second watch")
    return server


def try_other_watch(room, port, root, server, metrics):
    """After a restart the number of our watch is another client's: its changes are left to it."""
    room.stop(server)
    server = room.serve(TOP / "examples" / "heating-plant.xml", port)
    number = re.search("/obix/watch/([0-9]+)/", ask(f"{root}/obix/watchService/make", ""))[1]
    ask(f"{root}/obix/watch/{number}/add", '<obj><list name="hrefs"><uri val="/obix/pump1/speed"/></list></obj>')
    put(root, "/obix/pump1/speed", '<int val="11"/>')
    judge(sample(scrape(metrics), 'obix_point_ratio{path="/obix/pump1/speed"') == 0.11, "a scrape after a restart")
    changes = ask(f"{root}/obix/watch/{number}/pollChanges", "")
    judge('val="11"' in changes, f"the change of another client's watch {number} is still there for it", f": {changes}")
    return server


def message(link):
    """One whole request or reply, or no byte at the end."""
    told, more = b"", link.recv(65536)
    while more:
        told += more
        head, end, body = told.partition(b"\r\n\r\n")
        length = re.search(rb"(?i)content-length: (\d+)", head)
        if end and len(body) >= int(length[1] if length else 0):
            return told
        more = link.recv(65536)
    return b""


def try_lost(room, root, port):
    """A reply that is lost on its way: what it told comes with the next scrape."""
    loses, between = threading.Event(), socket.create_server(("127.0.0.1", room.port()))

    def carry(client):
        with client, socket.create_connection(("127.0.0.1", port)) as server:
            while True:
                request = message(client)
                server.sendall(request)
                reply = message(server)
                if not request or not reply or loses.is_set() and b"pollChanges" in request:
                    return
                client.sendall(reply)

    listen = lambda: [threading.Thread(target=carry, args=(link,), daemon=True).start() for link, _ in iter(between.accept, None)]
    threading.Thread(target=listen, daemon=True).start()
    _, metrics = room.export(f"http://127.0.0.1:{between.getsockname()[1]}/obix/")
    scrape(metrics)
    put(root, "/obix/pump1/speed", '<int val="21"/>')
    loses.set()
    judge(sample(scrape(metrics), "obix_up") == 0, "a poll whose reply is lost: obix_up is 0")
    loses.clear()
    text = scrape(metrics)
    told = [sample(text, it) for it in ("obix_up", 'obix_point_ratio{path="/obix/pump1/speed"', "obix_watches_made_total", "obix_scrape_failures_total")]
    judge(told == [1, 0.21, 1, 1], "the next scrape has what that reply told, of the same watch", f": {told}")


def try_lapse(room, root):
    _, metrics = room.export(f"{root}/obix/", "--lease", 1)
    scrape(metrics)
    put(root, "/obix/pump1/speed", '<int val="12"/>')
    told = lambda text: [sample(text, it) for it in ("obix_up", "obix_watches_made_total", "obix_points", 'obix_point_ratio{path="/obix/pump1/speed"')]
    judge(told(scrape(metrics)) == [1, 1, 9, 0.12], "a second scrape is of the same watch")
    time.sleep(2.5)
    judge(told(scrape(metrics)) == [1, 2, 9, 0.12], "a lapsed watch is made anew in the same scrape")


def try_alarms(room):
    """An alarm is raised, acknowledged and ended, by the counts of each state."""
    port = room.port()
    root = f"http://127.0.0.1:{port}"
    room.serve(TOP / "examples" / "plant-room.xml", port)
    _, metrics = room.export(f"{root}/obix/")
    families = [f'obix_alarms{{path="/obix/alarms",state="{it}"' for it in ("unackedAlarm", "alarm", "unacked")] + ["obix_alarms_raised_total"]
    flow = lambda value: lambda: put(root, "/obix/boiler/flow", f'<real val="{value}"/>')
    for act, text, wanted in (
            (flow(75), "no alarm", [0, 0, 0, 0]), (flow(82), "an alarm", [1, 0, 0, 1]), (lambda: ask(f"{root}/obix/alarm/1/ack", ""), "acknowledged", [0, 1, 0, 1]),
            (flow(75), "ended", [0, 0, 0, 1]), (flow(20), "another alarm", [1, 0, 0, 2]), (flow(40), "ended before its acknowledgement", [0, 0, 1, 2])):
        act()
        reply = scrape(metrics)
        told = [sample(reply, it) for it in families]
        judge(told == wanted, text, f": {told}")
    judge('status="unacked"} 1' in scrape(metrics), "the status of the point")


ALERTS = """rule_files: [%s]
evaluation_interval: 1m
tests:
- interval: 1m
  input_series:
  - {series: 'up{job="obix"}', values: '1x120'}
  - {series: 'obix_up', values: '1x60 0x60'}
  - {series: 'obix_point_status{path="/obix/b",display_name="Flow",status="unackedAlarm"}', values: '1x120'}
  - {series: 'obix_point_status{path="/obix/c",status="unackedAlarm"}', values: '1x120'}
  - {series: 'obix_point_status{path="/obix/d",status="alarm"}', values: '1x120'}
  - {series: obix_stored_entries_limit, values: '1000000x120'}
  - {series: obix_stored_entries, values: '100000+10000x80 950000x40'}
  - {series: obix_record_limit_bytes, values: '1073741824x120'}
  - {series: obix_record_bytes, values: '900000000x100 stale'}
  - {series: obix_clock_ahead_seconds, values: '-4.9x60 86400x60'}
  alert_rule_test:
  - {eval_time: 10m, alertname: NoServer, exp_alerts: []}
  - {eval_time: 70m, alertname: NoServer, exp_alerts: [{exp_annotations: {summary: "The oBIX server behind  doesn't answer."}}]}
  - {eval_time: 10m, alertname: NoExporter, exp_alerts: []}
  - eval_time: 10m
    alertname: PlantAlarm
    exp_alerts:
    - exp_labels: {path: /obix/b, display_name: Flow, status: unackedAlarm}
      exp_annotations: {summary: "In alarm, not acknowledged: Flow, /obix/b"}
    - exp_labels: {path: /obix/c, status: unackedAlarm}
      exp_annotations: {summary: "In alarm, not acknowledged: /obix/c"}
  - {eval_time: 10m, alertname: StoredEntries, exp_alerts: []}
  - eval_time: 90m
    alertname: StoredEntries
    exp_alerts: [{exp_annotations: {summary: "950000 entries are stored: beyond the limit no write that adds a record or an alarm is taken."}}]
  - {eval_time: 10m, alertname: StoredEntriesInAMonth, exp_alerts: []}
  - eval_time: 75m
    alertname: StoredEntriesInAMonth
    exp_alerts: [{exp_annotations: {summary: "As the last day went, the limit of stored entries is reached within 30 days."}}]
  - eval_time: 10m
    alertname: Record
    exp_alerts: [{exp_annotations: {summary: "RECORD has 858.3MiB of 1 GiB: make it shorter by `obix compact`."}}]
  - {eval_time: 10m, alertname: RecordUnseen, exp_alerts: []}
  - {eval_time: 110m, alertname: RecordUnseen, exp_alerts: [{exp_annotations: {summary: "The exporter at  can't see the file of --record."}}]}
  - {eval_time: 50m, alertname: Clock, exp_alerts: []}
  - {eval_time: 70m, alertname: Clock, exp_alerts: [{exp_annotations: {summary: "The server's time is 1d 0h 0m 0s off this machine's clock."}}]}
"""


def try_alerts(room):
    """The rules of examples/alerts.yml: that they are rules, and when each of them fires."""
    rules = TOP / "examples" / "alerts.yml"
    (room.folder / "alerts.yml").write_text(ALERTS % rules)
    for words in (("check", "rules", rules), ("test", "rules", room.folder / "alerts.yml")):
        run = subprocess.run(["promtool", *map(str, words)], capture_output=True, text=True)
        judge(run.returncode == 0, f"promtool {words[0]} rules, of examples/alerts.yml", f": {run.stdout}{run.stderr}")


FILLED = """<obj href="http://h/obix/" is="obix:Lobby"><list name="contracts"><obj href="log" is="obix:History"/></list>
<int href="a" val="0" writable="true"/><int href="b" val="0" writable="true"/><int href="c" val="0" writable="true"/>
<obj href="h" is="obix:History"><ref name="source" href="a"/><int name="capacity" val="999980"/></obj>
<obj href="g" is="obix:History"><ref name="source" href="b"/></obj>
<obj href="alarms" is="obix:AlarmSubject"><list name="rules">
<obj><ref name="source" href="c"/><int name="low" val="0"/><int name="high" val="5"/><bool name="needsAck" val="true"/></obj>
<obj><ref name="source" href="a"/><int name="low" val="0"/><int name="high" val="5"/><bool name="needsAck" val="false"/></obj></list></obj></obj>"""


def try_entries(room):
    """The stored entries, from 999,980 until the server takes no more: then they are its limit."""
    port = room.port()
    root = f"http://127.0.0.1:{port}"
    (room.folder / "filled.xml").write_text(FILLED)
    room.serve(room.folder / "filled.xml", port)
    _, metrics = room.export(f"{root}/obix/")
    shown = lambda text: [sample(text, it) for it in ("obix_stored_entries", "obix_alarm_entries", 'obix_history_entries{path="/obix/h"', 'obix_history_entries{path="/obix/g"')]
    acts = ((lambda: None, [999980, 0, 999980, 0]), (lambda: put(root, "/obix/b", '<int val="1"/>'), [999981, 0, 999980, 1]),
            (lambda: put(root, "/obix/a", '<int val="3"/>'), [999981, 0, 999980, 1]), (lambda: put(root, "/obix/c", '<int val="9"/>'), [999982, 1, 999980, 1]),
            (lambda: put(root, "/obix/a", '<int val="9"/>'), [999983, 2, 999980, 1]), (lambda: put(root, "/obix/a", '<int val="1"/>'), [999984, 3, 999980, 1]),
            (lambda: ask(f"{root}/obix/alarm/1/ack", ""), [999985, 4, 999980, 1]), (lambda: put(root, "/obix/c", '<int val="1"/>'), [999986, 5, 999980, 1]))
    for number, (act, wanted) in enumerate(acts):
        act()
        text = scrape(metrics)
        judge(shown(text) == wanted, f"stored entries, after act {number}", f": {shown(text)}")
    judge(is_clean(text) and sample(text, "obix_stored_entries_limit") == 1000000, "the limit, and promtool check metrics")
    _, other = room.export(f"{root}/obix/")
    judge(shown(scrape(other)) == wanted, "another exporter that begins now has the same", f": {shown(scrape(other))}")
    taken, refusal = 0, ""
    while "limit of 1000000 stored entries" not in refusal and taken < 30:
        refusal = put(root, "/obix/b", f'<int val="{100 + taken}"/>')
        taken += 1
    told = shown(scrape(metrics))
    judge(taken == 15 and told[0] == 1000000, "the server takes no more where they are the limit", f": {taken}, {told}")


def try_health(room):
    """The clock that is ahead, since a record of the site file is of tomorrow; and the bytes of RECORD."""
    port, record = room.port(), room.folder / "record"
    ahead = time.strftime("%Y-%m-%dT%H:%M:%SZ", time.gmtime(time.time() + 86400))
    (room.folder / "ahead.xml").write_text('<obj href="http://h/obix/" is="obix:Lobby"><int href="a" val="0" writable="true"/><obj href="h" is="obix:History">'
                                           f'<list name="data"><obj><abstime name="timestamp" val="{ahead}"/><int name="value" val="1"/></obj></list></obj></obj>')
    run = room.start("kept", room.program, "keep", room.folder / "ahead.xml", record, "127.0.0.1", port, "--workers", 4, "--quota", 1000)
    wait(lambda: b"listening" in (room.folder / "kept.out").read_bytes())
    exporter, metrics = room.export(f"http://127.0.0.1:{port}/obix/", "--record", record)
    put(f"http://127.0.0.1:{port}", "/obix/a", '<int val="7"/>')
    text = scrape(metrics)
    told = [sample(text, f"obix_{it}") for it in ("clock_ahead_seconds", "record_bytes", "record_limit_bytes")]
    judge(86300 < told[0] < 86401 and told[1:] == [record.stat().st_size, 2 ** 30] and is_clean(text), "a clock a day ahead, and a record", f": {told}")
    room.stop(run)
    record.rename(room.folder / "elsewhere")
    text, again = scrape(metrics), scrape(metrics)
    judge("record_bytes" not in text.replace("record_limit_bytes", "") and sample(text, "obix_record_limit_bytes") == 2 ** 30 and is_clean(again),
          "no file, no server: there are no bytes, and the limit stays")
    said = (room.folder / f"exporter{metrics}.err").read_text()
    judge(said.count("No such file") == 1 and "Traceback" not in said, "and one line says it", f": {said}")
    port = room.port()
    room.serve(TOP / "examples" / "heating-plant.xml", port)
    exporter, metrics = room.export(f"http://127.0.0.1:{port}/obix/")
    text = scrape(metrics)
    judge(abs(sample(text, "obix_clock_ahead_seconds")) < 1 and "obix_record" not in text, "a clock that isn't ahead, and no --record")


def try_many(room):
    """2,500 points need two watches."""
    port = room.port()
    points = "".join(f'<int name="p{it}" href="p{it}" val="{it}" displayName="&quot;\\{it}&quot;"/>' for it in range(2500))
    (room.folder / "many.xml").write_text(f'<obj href="http://h/obix/" is="obix:Lobby">{points}</obj>')
    room.serve(room.folder / "many.xml", port)
    _, metrics = room.export(f"http://127.0.0.1:{port}/obix/")
    text = scrape(metrics)
    judge([sample(text, "obix_points"), sample(text, "obix_watches_made_total"), is_clean(text)] == [2500, 2, True], "2,500 points, two watches, promtool")
    judge(r'''{path="/obix/p2499",display_name="\"\\2499\""} 2499''' in text, "quotation marks and backslashes in a label")
    began = time.monotonic()
    asked = [sample(scrape(metrics), "obix_scrape_duration_seconds") for _ in range(10)]
    took = (time.monotonic() - began) / 10
    print(f"a scrape of 2,500 points: {took * 1000:.0f} ms, {sum(asked) * 100:.1f} ms of it for asking the server (the mean of 10)")


def try_end(room, root, exporter, metrics):
    """SIGTERM and Ctrl-C delete the watch."""
    for sign, (run, port) in ((signal.SIGTERM, (exporter, metrics)), (signal.SIGINT, room.export(f"{root}/obix/"))):
        scrape(port)
        before = [it for it in range(1, 40) if "obix:Watch" in ask(f"{root}/obix/watch/{it}/")]
        run.send_signal(sign)
        status = run.wait(20)
        after = [it for it in range(1, 40) if "obix:Watch" in ask(f"{root}/obix/watch/{it}/")]
        holds = status == 0 and len(after) == len(before) - 1
        judge(holds, f"{sign.name}: status 0, and the watch is deleted", f": {status}, {before}, {after}")


def try_words(room):
    tool = [sys.executable, str(TOP / "tools" / "exporter.py")]
    with socket.socket() as taken:
        taken.bind(("127.0.0.1", room.port()))
        taken.listen()
        busy = ":".join(map(str, taken.getsockname()))
        for status, *words in ((2,), (2, "ftp://h/"), (2, "http://h/", "--listen", "127.0.0.1"), (2, "http://h/", "--lease", "0"),
                               (1, "http://h/", "--listen", busy), (0, "--help")):
            run = subprocess.run(tool + words, capture_output=True, text=True, timeout=60)
            holds = run.returncode == status and "Traceback" not in run.stderr
            judge(holds, f"status {status} of {words}", f": {run.returncode} {run.stderr}")
    _, metrics = room.export(f"http://127.0.0.1:{room.port()}/obix/")
    text = scrape(metrics)
    judge(sample(text, "obix_up") == 0 and is_clean(text), "no server from the start")


def main():
    words = argparse.ArgumentParser()
    words.add_argument("--obix", required=True, type=Path)
    words.add_argument("--from", dest="first", type=int, default=0)
    given = words.parse_args()
    room = Room(given.obix.resolve(), given.first)
    try:
        server, root, port, exporter, metrics, prometheus, api, gives = try_prometheus(room)
        server = try_restarts(room, server, root, port, metrics, api, gives)
        room.stop(prometheus)
        server = try_other_watch(room, port, root, server, metrics)
        try_lost(room, root, port)
        try_lapse(room, root)
        try_end(room, root, exporter, metrics)
        try_alarms(room)
        try_alerts(room)
        try_entries(room)
        try_health(room)
        try_many(room)
        try_words(room)
    finally:
        room.end()
    print("as it must be" if not failed else f"{failed} otherwise, see {room.folder}")
    return 1 if failed else 0


if __name__ == "__main__":
    sys.exit(main())
