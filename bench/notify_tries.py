"""The tries of bench/notify.sh."""
import collections
import email
import email.policy
import http.server
import json
import os
import pathlib
import pwd
import re
import resource
import shutil
import signal
import subprocess
import sys
import threading
import time

from tries import TOP, Missing, Process, certificates, main, site, until

WHATS = {"timestamp": "raised", "normalTimestamp": "normal", "ackTimestamp": "acked"}


def wanted(server):
    """The events of the server's alarms, each as NUMBER/WHAT."""
    return {f"{alarm.get('href').split('/')[3]}/{WHATS[it.get('name')]}" for alarm in server.asked("alarms") for it in alarm
            if it.get("name") in WHATS and it.get("val")}


def short(name):
    return "/".join(name.split("/")[1:3])


def notify(room, name, server, *words):
    return room.tool(name, "notify.py", server.url, "--state", room.folder / f"{name}.state", "--every", 0.2, *words)


def compared(room, server, names, text, seconds=60):
    """Judges whether each event of the server was told, none more often than twice; how many were told twice."""
    until(lambda: {short(it) for it in names()} == wanted(server), seconds, 0.5)
    told, must = collections.Counter(names()), wanted(server)
    room.judge({short(it) for it in told} == must and max(told.values()) <= 2, f"{text}: {len(must)} events, each told",
               sorted(must ^ {short(it) for it in told})[:9])
    return sum(told.values()) - len(told)


def begun(state):
    """Waits until the first look is noted in a state file."""
    until(lambda: state.exists() and b"begun" in state.read_bytes(), 15)


class Hook:
    """A webhook that refuses one event in `one_in`, where it is given, or answers with `status`."""

    def __init__(self, room, one_in=0, status=204):
        self.told, self.refused, self.keys, lock, hook = [], 0, [], threading.Lock(), self

        class Answers(http.server.BaseHTTPRequestHandler):
            def do_POST(self):
                event = json.loads(self.rfile.read(int(self.headers["Content-Length"])))
                with lock:
                    refuses = status != 204 or one_in and room.chance.randrange(one_in) == 0
                    hook.refused += bool(refuses)
                    if not refuses:
                        hook.told.append(event["id"])
                        hook.keys.append(self.headers["Idempotency-Key"])
                self.send_response((status if status != 204 else 503) if refuses else 204)
                self.send_header("Location", "/elsewhere")
                self.end_headers()

            def do_GET(self):
                self.send_response(200)
                self.end_headers()

            def log_message(self, *_):
                pass

        self.server = http.server.ThreadingHTTPServer(("127.0.0.1", room.free_port()), Answers)
        threading.Thread(target=self.server.serve_forever, daemon=True).start()
        self.url = f"http://127.0.0.1:{self.server.server_port}/alarm"


def try_webhook(room, seconds=60):
    server, hook = room.server("webhook", site(1)), Hook(room, 20)
    tool = notify(room, "webhook-tool", server, "--past", "--webhook", hook.url)
    work = server.alarms(seconds)
    count = room.kills(seconds - 2, (0.3, 2), (0, 0.5), server=server, tool=tool)
    for it in work:
        it.join()
    server.put("m", 5), server.put("q", 5)
    twice = compared(room, server, lambda: list(hook.told), f"webhook: {count}")
    print(f"webhook: {hook.refused} refusals of the hook")
    room.judge(twice <= count.get("tool", 0) and hook.keys == hook.told, f"webhook: {twice} were told twice, under one name: no more than kills of the tool")
    room.judge(tool.kill(signal.SIGTERM) == 0, "webhook: SIGTERM, status 0", tool.said()[-500:])
    sent = len(hook.told)
    server.put("m", 500), server.put("m", 5)
    tool.start()
    room.judge(until(lambda: len(hook.told) == sent + 2, 15) is not None, "webhook: after the next start what came meanwhile, and nothing else", hook.told[sent:])
    turned = Hook(room, status=302)
    other = notify(room, "turned", server, "--past", "--webhook", turned.url)
    room.judge(until(lambda: turned.refused > 1, 15) is not None, "webhook: a redirection isn't followed, and is no telling", other.said())
    for it in (tool, other, server):
        it.kill()


def try_command(room):
    history = '<obj name="hm" href="hm" is="obix:History" displayName="H"><ref name="source" href="m"/></obj>'     # its ref has the point's href
    server, out = room.server("command", site(1).replace('<obj name="alarms"', history + '<obj name="alarms"')), room.folder / "command.told"
    words = ("--command", f'echo "$ALARM_ID|$ALARM_SOURCE|$ALARM_NAME|$ALARM_VALUE|$ALARM_WHO|$ALARM_STATE" >> {out}')
    lines = lambda: [re.sub("^[^/]*/|/2[^|]*", "", it) for it in out.read_text().splitlines()] if out.exists() else []
    server.put("q", -1), server.put("q", 1)
    tool = notify(room, "command-tool", server, *words)
    begun(room.folder / "command-tool.state")
    server.put("m", 200)
    until(lambda: len(lines()) == 1, 15)
    server.acknowledge(2, "ann $(id) &quot;&#10;'")
    until(lambda: "/2/acked/" in (room.folder / "command-tool.state").read_text(), 15)
    tool.kill()
    server.put("m", 2)
    server.kill()
    server.start(), tool.start()
    until(lambda: len(lines()) >= 3, 15)
    time.sleep(1)
    must = ["2/raised|/obix/m|m|200||unackedAlarm", "2/acked|/obix/m|m|200|ann $(id) \" '|alarm", "2/normal|/obix/m|m|200||ok"]
    room.judge(lines() == must, "command: raised, acked and normal over restarts of both, none of before; a user's name isn't read by the shell", lines())
    second = notify(room, "command-tool", server, *words)
    room.judge(second.run.wait(20) == 3 and "another notify has it" in second.said(), "command: a second one on the same file: status 3", second.said())
    slow = notify(room, "slow", server, "--past", "--timeout", 1, "--command", f"sleep 300 & echo $! >> {room.folder}/slow.pids; wait")
    until(lambda: "not done within 1 s" in slow.said(), 20)
    pids = (room.folder / "slow.pids").read_text().split()
    gone = until(lambda: not pathlib.Path(f"/proc/{pids[0]}").exists(), 5)
    room.judge(gone is not None, "command: one that doesn't end is ended, with what it started", slow.said())
    for it in (slow, tool):
        room.judge(it.kill(signal.SIGTERM) == 0, "command: SIGTERM, status 0", it.said()[-300:])
    server.kill()


def try_back(room):
    """A copy of the record is put in its place: the alarms 2 to 4 come again, and are other ones, before the tool looks."""
    server, out = room.server("back", site(1)), room.folder / "back.told"
    tool = notify(room, "back-tool", server, "--past", "--command", f'echo "$ALARM_ID $ALARM_VALUE" >> {out}')
    server.put("m", 200)
    copy = server.record.read_bytes()
    for value in (2, 301, 2, 302, 2):
        server.put("m", value)
    until(lambda: out.exists() and len(out.read_text().splitlines()) == 6, 15)
    server.kill()
    server.record.write_bytes(copy)
    server.start()
    for value in (3, 400, 3, 401, 3, 402):
        server.put("m", value)
    lines = lambda: [(short(it), it.split()[-1]) for it in out.read_text().splitlines()]
    until(lambda: ("4/raised", "402") in lines(), 15)
    again = [(f"{n}/raised", str(398 + n)) for n in (2, 3, 4)]
    room.judge({*again, ("2/raised", "301")} <= {*lines()} and len(set(out.read_text().splitlines())) == len(lines()),
               "back: a copy of the record in its place: the second alarms 2, 3 and 4 are told as well, nothing twice", lines())
    tool.kill(), server.kill()


def try_full(room):
    """The disk of the state file is full: what was told isn't told again while the tool lives, and is noted when there is room."""
    server, hook, state = room.server("full", site(1)), Hook(room), room.folder / "full-tool.state"
    state.write_text("obix-notify 1\n" + "an/earlier/run/s\n" * 1000)    # more than the log will have
    tool = notify(room, "full-tool", server, "--past", "--webhook", hook.url)
    begun(state)
    limits = lambda size: resource.prlimit(tool.run.pid, resource.RLIMIT_FSIZE, (size, resource.RLIM_INFINITY))
    limits(state.stat().st_size + 20)                      # a write beyond is refused, as on a full disk
    for value in (200, 2, 201, 2):
        server.put("m", value)
    until(lambda: len(hook.told) == 4, 15)
    time.sleep(2)
    room.judge(len(hook.told) == 4 and "state" in tool.said() and tool.run.poll() is None, "full: four events are told once, and the trouble is said",
               (hook.told, tool.said()))
    limits(resource.RLIM_INFINITY)
    room.judge(until(lambda: len(state.read_text().splitlines()) == 1006, 15) is not None, "full: they are noted when there is room", state.read_text()[-500:])
    tool.kill()
    tool.start()
    time.sleep(2)
    room.judge(len(hook.told) == 4, "full: and aren't told again", hook.told)
    tool.kill(), server.kill()


EXIM = """primary_hostname = try.example
spool_directory = {folder}/spool
log_file_path = {folder}/spool/%slog
keep_environment =
tls_advertise_hosts = *
tls_certificate = {folder}/mail.pem
tls_privatekey = {folder}/spool/mail.key
deliver_drop_privilege = true
acl_smtp_rcpt = rcpt
begin acl
rcpt:
  deny message = no mail for $domain here
    domains = !example
  deny message = a password is needed
    condition = ${{if eq{{$received_port}}{{{secured}}}}}
    !authenticated = *
  accept
begin routers
all:
  driver = accept
  transport = box
begin transports
box:
  driver = appendfile
  maildir_format
  directory = {folder}/spool/box
begin authenticators
plain:
  driver = plaintext
  public_name = PLAIN
  server_advertise_condition = ${{if def:tls_in_cipher}}
  server_prompts = :
  server_condition = ${{if and{{{{eq{{$auth2}}{{plant}}}}{{eq{{$auth3}}{{se cret}}}}}}}}
  server_set_id = $auth2
"""


class Mails(Process):
    """An Exim of our own on loopback, which knows no other server: mails for @example come into a folder. With a password it is reached
    by STARTTLS at the port `secured`, without at `port`."""

    def __init__(self, room):
        program = shutil.which("exim4")
        if not program or os.getuid():
            raise Missing("exim4-daemon-light")
        certificates(room.folder, "mail")
        spool, user = room.folder / "spool", pwd.getpwnam("Debian-exim")
        spool.mkdir(), room.folder.chmod(0o755)
        (spool / "mail.key").write_bytes((room.folder / "mail.key").read_bytes())
        for it in (spool, spool / "mail.key"):
            os.chown(it, user.pw_uid, user.pw_gid)
        (spool / "mail.key").chmod(0o600)
        self.box, self.secured, port = spool / "box/new", room.free_port(), room.free_port()
        (room.folder / "exim.conf").write_text(EXIM.format(folder=room.folder, secured=self.secured))
        words = [program, "-C", room.folder / "exim.conf", "-bdf", "-oP", spool / "pid", "-oX", f"127.0.0.1.{self.secured}:127.0.0.1.{port}"]
        super().__init__(room, "exim", words, port)

    def mails(self):
        """The mails that were delivered, the later ones last."""
        files = sorted(self.box.iterdir(), key=lambda it: it.stat().st_mtime_ns) if self.box.exists() else []
        return [email.message_from_bytes(it.read_bytes(), policy=email.policy.default) for it in files]


def try_mail(room):
    mails, server = Mails(room).start(), room.server("mail", (TOP / "examples/plant-room.xml").read_text())
    (room.folder / "password").write_text("se cret\n")
    (room.folder / "wrong").write_text("secret\n")
    sent = ("--from", "plant@example", "--to", "ann@example", "--to", "bob@example")
    tls = ("--smtp", f"127.0.0.1:{mails.secured}", "--starttls", "--ca", room.folder / "ca.pem", "--user", "plant", "--password-file")
    tool = notify(room, "mail-tool", server, *tls, room.folder / "password", *sent, "--link", "https://plant.example/")
    begun(room.folder / "mail-tool.state")
    flow = lambda value: server.ask("PUT", "boiler/flow", f'<real val="{value}"/>')
    flow(82), flow(75)
    server.acknowledge(1, "Ann Müller".encode().decode("latin-1"))
    room.judge(until(lambda: len(mails.mails()) == 6, 30) is not None, "mail: by STARTTLS with a password: three events to two people",
               (tool.said(), (room.folder / "spool/mainlog").read_text()))
    first = mails.mails()[0]
    text = first.get_content()
    room.judge(first["Subject"] == "Plant room: raised: boiler, flow 82 celsius" and "Point:        boiler, flow (/obix/boiler/flow)" in text
               and "https://plant.example/" in text and len({it["Message-ID"] for it in mails.mails()}) == 3, "mail: its words", (first["Subject"], text))
    print(f"Subject: {first['Subject']}\n\n{text}")
    tool.kill(signal.SIGTERM)
    plain = ("--smtp", f"127.0.0.1:{mails.port}", "--to", "ann@elsewhere")
    for name, must, *words in (("wrong", "smtp: 535 ", *tls, room.folder / "wrong", *sent), ("unknown", "certificate verify failed", *tls[:3], *sent),
                               ("nobody", "ann@elsewhere: 550 no mail for elsewhere here", *plain),
                               ("some", "ann@elsewhere is refused, the others have it", *plain, "--to", "bob@example")):
        other = notify(room, name, server, "--past", *words)
        room.judge(until(lambda: must in other.said(), 20) is not None and "Traceback" not in other.said(), f"mail: {name}: {must}", other.said())
        other.kill()
    mails.kill()
    tool.start()
    flow(90)
    until(lambda: "smtp: " in tool.said(), 15)
    before = len(mails.mails())
    mails.start()
    room.judge(until(lambda: len(mails.mails()) == before + 2, 40) is not None, "mail: the mail server was away: told when it is back", tool.said())
    for it in (tool, server, mails):
        it.kill()


def try_line(room):
    (room.folder / "foreign").write_text("a line\nof mine")
    tool, url, state = [sys.executable, str(TOP / "tools/notify.py")], "http://127.0.0.1:1/obix/", ("--state", str(room.folder / "line.state"))
    for status, *words in ((2,), (2, url, *state), (2, url, "--command", "true"), (2, "ftp://h/", *state, "--command", "true"),
                           (2, url, *state, "--command", "true", "--webhook", "http://h/"), (2, url, *state, "--webhook", "h"), (2, url, *state, "--smtp", "h"),
                           (2, url, *state, "--smtp", "h", "--to", "a@b", "--user", "u", "--password-file", "f"),
                           (2, url, *state, "--command", "true", "--every", "0"),
                           (3, url, "--state", "/nothing/here", "--command", "true"), (3, url, "--state", str(room.folder / "foreign"), "--command", "true"),
                           (3, url, *state, "--smtp", "h", "--to", "a@b", "--starttls", "--ca", "/nothing"), (0, "--help")):
        run = subprocess.run(tool + words, capture_output=True, text=True, timeout=60)
        room.judge(run.returncode == status and "Traceback" not in run.stderr, f"line: status {status} of {' '.join(words)}", (run.returncode, run.stderr))
    room.judge((room.folder / "foreign").read_text() == "a line\nof mine", "line: a file of somebody else is left as it is")


sys.exit(main("notify", {it.partition("_")[2]: globals()[it] for it in ("try_command", "try_back", "try_full", "try_line", "try_webhook", "try_mail")}))
