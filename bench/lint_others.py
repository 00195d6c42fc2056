"""The tries of bench/lint.sh for what isn't a site: weekly schedules, configs of `super` and their servers, records of `keep`."""
import http.server
import random
import socket
import subprocess
import threading
import time
import urllib.request
from pathlib import Path

from site_lint import lint_record, lint_schedule, lint_super

TOP = Path(__file__).resolve().parent.parent
WEEKS = (   # what is altered in examples/heating.xml, and what is said of it then
    ("CET-1CEST,M3.5.0,M10.5.0/3", "Europe/Berlin", "no rule of POSIX", "1 zone"), ('<str name="zone"', '<int name="zone"', "an int", None),
    ('name="zone"', 'name="zona"', "no str named zone", "0 zone"), ("/obix/boiler/setpoint", "boiler/setpoint", "shows nothing", "4 not writable"),
    ("/obix/boiler/setpoint", "/obix/boiler/flow", "no writable point", "4 not writable"), ('name="entries"', 'name="items"', "no list named entries", "3 entries"),
    ('<list name="entries">', '<list name="entries"><bool/>', "has to be an obj", "6 kind"), ('name="day" val="6"', 'name="day" val="8"', "1 (Monday)", "47 day"),
    ('val="08:00:00"', 'val="08:00:00.0001"', "whole milliseconds", "48 at"), ('val="62.5"', 'val="162.5"', "doesn't take this value", "49 value limits"),
    ('<real name="value" val="62.5"/>', '<int name="value" val="62"/>', "of one kind", "49 value kind"), ('val="13:00:00"', 'val="08:00:00"', "its day and its time", "50 time twice"),
    ('val="13:00:00"', 'val="25:00:00"', "wanted is a time", None),
)


def try_schedules(program, judge):
    """Files of weekly schedules for the plant room: the part that the program refuses, and why."""
    site, text = str(TOP / "examples" / "plant-room.xml"), (TOP / "examples" / "heating.xml").read_text()
    judge(lint_schedule(str(TOP / "examples" / "heating.xml"), site, program)[0] == 0, "examples/heating.xml")
    for old, new, why, part in WEEKS:
        Path("weeks.xml").write_text(text.replace(old, new, 1))
        status, lines = lint_schedule("weeks.xml", site, program)
        said = f"[Schedule {part}]" if part is not None else "]"
        judge(status == 2 and why in lines[0] and lines[0].endswith(said), f"{old} => {new}", f"\ncame out: {lines[0]}")
    print(f"{len(WEEKS)} files of schedules are refused at their part")


def free_port():
    with socket.socket() as free:
        free.bind(("127.0.0.1", 0))
        return free.getsockname()[1]


def serving(program, *words):
    """The program as a server at a port of its own."""
    port = free_port()
    run = subprocess.Popen([program.path, *words, "127.0.0.1", str(port), "--quota", "1000"], stdout=subprocess.PIPE)
    run.stdout.readline()   # it listens
    return run, port


class Other(http.server.BaseHTTPRequestHandler):
    """A server that is none of oBIX: a page at /, and nothing else."""

    def do_GET(self):
        text = b"<html>a page</html>"
        self.send_response(200 if self.path == "/" else 404)
        self.send_header("Content-Length", str(len(text)))
        self.end_headers()
        self.wfile.write(text)

    def log_message(self, *_):
        pass


def try_asking(program, judge):
    """A config whose servers are asked: one that is there, one that isn't, one of another program, a url and hrefs that lead nowhere."""
    run, port = serving(program, "serve", str(TOP / "examples" / "plant-room.xml"))
    other = http.server.ThreadingHTTPServer(("127.0.0.1", 0), Other)
    threading.Thread(target=other.serve_forever, daemon=True).start()
    urls = {"a": f"{port}/obix/", "b": f"{port}/obix", "c": f"{free_port()}/obix/", "d": f"{other.server_port}/",
            "e": f"{other.server_port}/obix/"}
    hrefs = ["/obix/pump1", "boiler/flow", "/obix/boiler/flwo", *(f"/obix/gone{n}" for n in range(250))]
    uris = "".join(f'\n<uri val="{it}"/>' for it in hrefs)
    servers = (f'<obj name="{name}">\n<uri name="url" val="http://127.0.0.1:{url}"/>\n<list name="hrefs">{uris}</list></obj>\n'
               for name, url in urls.items())
    Path("asked.xml").write_text(f'<list>\n{"".join(servers)}</list>')
    try:
        judge(lint_super("asked.xml", program, False)[1][-1] == "asked.xml: 5 servers, 1 warning", "a config whose servers aren't asked")
        status, lines = lint_super("asked.xml", program, True)
    finally:
        run.kill()
        run.wait()
        other.shutdown()
    said = [it.partition("warning: ")[2] for it in lines if ": warning: " in it]
    judge(status == 1 and len(said) == 251 + 5 and lines[-1] == "asked.xml: 5 servers, 256 warnings", "the answers of servers", f": {len(said)}")
    for text in ("a: the server refuses /obix/boiler/flwo (no such object): it will be left out",
                 "a: the server refuses /obix/gone249 (no such object): it will be left out",
                 "b: the server has no object at this url: it will be shown as down",
                 "c: no server answers at this url: it will be shown as down",
                 "d: what answers at this url is no oBIX server (document Element at 0): it will be shown as down",
                 "e: what answers at this url is no oBIX server (status 404): it will be shown as down"):
        judge(text in said, text, f"\ncame out: {[it for it in said if it[0] == text[0]][:3]}")
    print(f"a config of {len(urls)} servers that are asked: what each of them answers")


def put(port, path, value):
    asked = urllib.request.Request(f"http://127.0.0.1:{port}/obix/{path}", value.encode(), {"Content-Type": "text/xml"}, method="PUT")
    with urllib.request.urlopen(asked, timeout=30) as reply:
        return reply.read()


def try_kept(program, judge):
    """A record that a server has and writes to: what fits it, and what doesn't, with the moments of the server."""
    text = (TOP / "examples" / "plant-room.xml").read_text()
    Path("kept.xml").write_text(text)
    run, port = serving(program, "keep", "kept.xml", "kept.record")
    try:
        for value in ("75", "85", "72"):
            put(port, "boiler/flow", f'<real val="{value}"/>')
            time.sleep(0.01)
        judge(lint_record("kept.record", "kept.xml", program) == (0, ["kept.record: 3 entries: nothing differs"]), "a record that fits")
        record = Path("kept.record").read_bytes()
        for old, new, number, why in (
                ('val="71.5" unit', 'displayName="Flow" val="71.5" unit', 0, 'displayName: none then, "Flow" now'),
                ('name="high" val="80"', 'name="high" val="90"', 1, 'status: "unackedAlarm" then, "ok" now (a rule of alarms is another)'),
                ('href="boiler/flow" val', 'href="boiler/flows" val', 0, None), ("</obj>", "", 0, None)):
            changed = text.replace(old, new, 1)
            Path("other.xml").write_text(changed.replace('href="boiler/flow"/>', 'href="boiler/flows"/>') if "flows" in new else changed)
            try:
                status, lines = lint_record("kept.record", "other.xml", program)
            except Exception as fault:
                judge(new == "" and "ask about the site alone first" in str(fault), f"{old} => {new}", f"\ncame out: {fault!r}")
                continue
            why = why or "the site shows nothing at /obix/boiler/flow now: was the point renamed, or taken away? (is /obix/boiler/flows meant?)"
            judge(status == 2 and f"/obix/boiler/flow: {why} [illegal at {number}]" in lines[0] and f"entry {number}, " in lines[3],
                  f"{old} => {new}", "\ncame out: " + "\n".join(lines))
        judge(Path("kept.record").read_bytes() == record, "the record is as it was")
    finally:
        run.kill()
        run.wait()
    print("a record that a server has is held against four site files")


def altered(draw, data):
    """Bytes with some left out, doubled or altered."""
    data = bytearray(data)
    for _ in range(draw.randint(1, 2)):
        at, many = draw.randrange(len(data)), draw.choice((1, 1, 2, 5, 20))
        data[at:at + many] = draw.choice((b"", data[at:at + many] * 2, draw.choice((b"<", b">", b'"', b"/", b"\n", b"\0", b" x", b"7"))))
    return bytes(data)


def try_altered(program, judge):
    """Configs and records that are altered at random: refused where the program refuses, with its words."""
    draw, config, refused = random.Random(2), (TOP / "examples" / "campus.xml").read_bytes(), [0, 0]
    kept = (TOP / "examples" / "alarm.record").read_bytes().partition(b"\n1767600002000 GET ")[0] + b"\0"
    site = str(TOP / "examples" / "plant-room.xml")
    judge(lint_record_of(kept, site, program)[0] == 0, "the writes of examples/alarm.record")
    for _ in range(150):
        Path("campus.xml").write_bytes(altered(draw, config))
        came, lines = lint_super("campus.xml", program, False)
        cause = program.run("super", "campus.xml", "--rounds", "0")[1]
        judge(came < 2 if cause is None else came == 2 and lines[0].endswith(f"[{cause}]"),
              f"an altered config: {Path('campus.xml').read_bytes()!r}", f"\ncame out: {lines[0]}")
        data = altered(draw, kept)
        held, lines = lint_record_of(data, site, program)
        Path("new").unlink(missing_ok=True)
        cause = program.run("compact", site, "record", "new", may=(13,))[1]
        judge(held == 0 if cause is None else held == 2 and lines[0].endswith(f"[{cause}]"),
              f"an altered record: {data!r}", f"\ncame out: {lines[0]}")
        refused = [refused[0] + (came == 2), refused[1] + (held == 2)]
    print(f"150 altered configs and 150 altered records, {refused[0]} and {refused[1]} of them refused: as the program says")


def lint_record_of(data, site, program):
    Path("record").write_bytes(data)
    return lint_record("record", site, program)
