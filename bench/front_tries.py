"""The tries of bench/front.sh. Bounded in time and count; all traffic is on 127.0.0.1."""
import base64
import contextlib
import os
import re
import shutil
import socket
import ssl
import statistics
import subprocess
import sys
import tempfile
import time

NAME = "plant.example"
FLOW = "/obix/boiler/flow"
ANN = base64.b64encode(b"ann:secret").decode()


def free_port():
    with socket.socket() as free:
        free.bind(("127.0.0.1", 0))
        return free.getsockname()[1]


class Front:
    """nginx and obix behind it, on free ports, until the `with` block ends."""

    def __init__(self, examples, program):
        self.examples, self.program, self.running = examples, program, contextlib.ExitStack()
        self.room = self.running.enter_context(tempfile.TemporaryDirectory(prefix="obix-front."))
        self.front = None
        self.running.callback(lambda: self.front and end(self.front))
        os.chmod(self.room, 0o755)                             # nginx's own user reads the file of users
        self.port, self.inner, self.page = free_port(), free_port(), free_port()

    def __enter__(self):
        with self.running:
            self.make_certificate()
            self.make_users("ann", "guest")
            self.open_site()
            self.open_front()
            self.running = self.running.pop_all()
        return self

    def __exit__(self, *fault):
        return self.running.__exit__(*fault)

    def make_certificate(self):
        subprocess.run(["openssl", "req", "-x509", "-newkey", "ec", "-pkeyopt", "ec_paramgen_curve:prime256v1", "-nodes",
                        "-days", "2", "-subj", f"/CN={NAME}", "-addext", f"subjectAltName=DNS:{NAME}",
                        "-keyout", f"{self.room}/plant.key", "-out", f"{self.room}/plant.crt"], check=True, capture_output=True)

    def open_site(self):
        words = [self.program, "serve", f"{self.examples}/plant-room.xml", "127.0.0.1", str(self.inner)]
        self.site = subprocess.Popen([*words, "--workers", "64", "--quota", "1000000"], stdout=subprocess.PIPE, text=True)
        self.running.callback(lambda: end(self.site))
        assert self.site.stdout.readline() == f"listening 127.0.0.1 {self.inner}\n"

    def make_users(self, *names):
        made = subprocess.run(["openssl", "passwd", "-apr1", "secret"], capture_output=True, text=True, check=True).stdout
        with open(f"{self.room}/users", "w", encoding="utf-8") as file:
            file.writelines(f"{name}:{made}" for name in names)

    def open_front(self, with_users=True):
        """The file as it stands, but for its ports and where its files lie; or without its two lines on users."""
        if self.front:
            end(self.front)
        with open(f"{self.examples}/nginx.conf", encoding="utf-8") as file:
            text = file.read()
        for old, new in (("listen 443 ", f"listen 127.0.0.1:{self.port} "), ("server 127.0.0.1:8080;", f"server 127.0.0.1:{self.inner};"),
                         ("server 127.0.0.1:8081;", f"server 127.0.0.1:{self.page};"), (" /etc/obix/", f" {self.room}/")):
            assert old in text, old
            text = text.replace(old, new)
        if not with_users:
            text = text.replace("    auth_basic", "    # auth_basic")
        with open(f"{self.room}/nginx.conf", "w", encoding="utf-8") as file:
            file.write(f"worker_processes 4; daemon off; pid {self.room}/pid; error_log {self.room}/error.log;\n"
                       "events { worker_connections 1024; }\n"
                       f"http {{ access_log {self.room}/access.log;\n"
                       + "".join(f"{it}_temp_path {self.room}/{it};\n" for it in ("client_body", "proxy", "fastcgi", "scgi", "uwsgi"))
                       + text + "}\n")
        words = ["nginx", "-e", f"{self.room}/error.log", "-c", f"{self.room}/nginx.conf"]
        tested = subprocess.run([*words, "-t"], capture_output=True, text=True)
        assert tested.returncode == 0, tested.stderr
        self.front = subprocess.Popen(words, stderr=subprocess.DEVNULL)
        wait_for(lambda: socket.create_connection(("127.0.0.1", self.port), 1).close())

    def curl(self, path, *words, host=NAME, body=None, user="ann:secret"):
        """The status of a request, the seconds that it took, its head and its body."""
        place = f"{host}:{self.port}"
        run = subprocess.run(["curl", "-s", "-S", "-i", "--max-time", "20", "--cacert", f"{self.room}/plant.crt", "--resolve",
                              f"{place}:127.0.0.1", *(("-u", user) if user else ()), "-w", "\n%{http_code} %{time_total}", *words,
                              f"https://{place}{path}"], input=body, capture_output=True, check=False)
        rest, _, last = run.stdout.rpartition(b"\n")
        assert run.returncode == 0, run.stderr
        status, took = last.split()
        head, _, text = rest.rpartition(b"\r\n\r\n")
        return int(status), float(took), head.decode(), text

    def put(self, value, *words, **how):
        return self.curl(FLOW, "-X", "PUT", "-H", "Content-Type: text/xml", "-d", f'<real val="{value}"/>', *words, **how)

    def post(self, path, body, *words, **how):
        """A post: its status and the text of its answer."""
        status, _, _, text = self.curl(path, "-X", "POST", "-H", "Content-Type: text/xml", "-d", body, *words, **how)
        return status, text.decode()

    def flow(self):
        return re.search(rb' val="([^"]*)"', self.curl(FLOW)[3])[1].decode()


def end(run):
    run.terminate()
    run.wait(20)


def wait_for(attempt):
    for _ in range(200):
        try:
            return attempt()
        except OSError:
            time.sleep(0.05)
    return attempt()


def reads(it):
    status, _, head, text = it.curl(FLOW)
    assert status == 200 and b'val="71.5"' in text, text
    assert "Content-Type: text/xml; charset=utf-8" in head, head


def other_hosts(it):
    assert it.curl(FLOW, "-k", host="evil.example")[0] == 421
    assert it.curl(FLOW, "-H", "Host: evil.example")[0] == 421
    assert it.curl(FLOW, "-k", host="127.0.0.1")[0] == 421


def foreign_writes(it):
    own, other = f"https://{NAME}:{it.port}", "http://evil.example"
    assert it.put(72)[0] == 200 and it.flow() == "72"
    assert it.put(73, "-H", f"Origin: {own}")[0] == 200 and it.flow() == "73"
    for origin in (other, f"{own}.evil.example", f"{own}0", f"http://{NAME}:{it.port}", f"https://{NAME}", f"https://x.{NAME}:{it.port}", "null"):
        assert it.put(74, "-H", f"Origin: {origin}")[0] == 403, origin
        post = it.curl("/obix/boiler/setpoint/writePoint", "-X", "POST", "-H", f"Origin: {origin}", "-H", "Content-Type:",
                       "-d", '<obj><real name="value" val="42"/></obj>')
        assert post[0] == 403, (origin, post)
    assert it.flow() == "73"
    assert it.curl(FLOW, "-H", f"Origin: {other}")[0] == 200


def forms(it):
    words = ("-X", "PUT", "-H", "Content-Type: text/xml")
    chunked = it.curl(FLOW, *words, "-H", "Transfer-Encoding: chunked", "-d", '<real val="75"/>')
    assert chunked[0] == 200 and it.flow() == "75", chunked
    expect = it.curl(FLOW, *words, "-H", "Expect: 100-continue", "-d", f'<real val="76" display="{"x" * 2_000}"/>')
    assert expect[0] == 200 and it.flow() == "76" and expect[1] < 0.9, expect
    large = it.curl(FLOW, *words, "--data-binary", "@-", body=b" " * 2_000_000)
    assert large[0] == 413, large
    head = it.curl(FLOW, "-I")
    assert head[0] == 200 and "Content-Type: text/xml" in head[2] and head[3] == b"", head
    lobby = it.curl("/obix")
    assert lobby[0] == 200 and b'<ref name="about"' in lobby[3], lobby
    return f"Expect in {expect[1] * 1000:.0f} ms"


def users(it):
    for user in (None, "ann:other", "guest:other", "bob:secret"):
        assert it.curl(FLOW, user=user)[0] == 401 and it.curl("/", user=user)[0] == 401, user
    assert it.put(73.5, user="ann:other")[0] == 401 and it.put(73.5, user=None)[0] == 401
    it.open_front(with_users=False)
    assert it.curl(FLOW, user=None)[0] == 200 and it.put(78, user=None)[0] == 200
    it.open_front()


GUEST = {"user": "guest:secret"}
READING = "/obix/boiler/setpoint"
# Spellings of the path of an op that writes, as nginx and obix might read them differently.
SPELLINGS = (f"{READING}/writePoint", f"{READING}/%77ritePoint", f"/obix/watch/1/../../boiler/setpoint/writePoint",
             f"/obix/watch/1/%2e%2e/%2e%2e/boiler/setpoint/writePoint", f"{READING}/writePoint?/query", f"{READING}/writePoint#/query",
             f"{READING}/writePoint%3f/query", f"{READING}/writePoint/x\\../query", f"/obix/query\\..\\boiler/setpoint/writePoint",
             f"{READING}/writePoint/query/..", f"{READING}/writePoint/query/%2e%2e", f"{READING}/writePoint;/query", f"//obix/boiler/setpoint/writePoint",
             f"{READING}/writePoint%00/query", f"{READING}/writePoint%2f..%2fquery", f"{READING}/writePoint%0a/query")


def readers(it):
    """What a user who may only look can do, and can't."""
    before = it.curl(READING)[3], it.flow()
    assert it.curl(FLOW, **GUEST)[0] == 200 and it.curl("/obix", **GUEST)[0] == 200
    watch = re.search(r'href="(/obix/watch/\d+/)"', it.post("/obix/watchService/make", "", **GUEST)[1])[1]
    assert it.curl(f"{watch}lease", "-X", "PUT", "-H", "Content-Type: text/xml", "-d", '<reltime val="PT2M"/>', **GUEST)[0] == 200
    for part, body in (("add", f'<obj><list name="hrefs"><uri val="{FLOW}"/></list></obj>'), ("pollRefresh", ""), ("pollChanges", ""),
                       ("remove", f'<obj><list name="hrefs"><uri val="{FLOW}"/></list></obj>'), ("delete", "")):
        status, text = it.post(f"{watch}{part}", body, **GUEST)
        assert status == 200 and "<err" not in text, (part, text)
    for path in ("/obix/setpoints/query", "/obix/alarms/query"):
        assert "<abstime" in it.post(path, "", **GUEST)[1], path
    assert it.put(79, **GUEST)[0] == 403 and it.put(79, "-H", f"Origin: https://{NAME}:{it.port}", **GUEST)[0] == 403
    for path, body in (("/obix/batch", f'<list><uri is="obix:Write" val="{FLOW}"><real name="in" val="79"/></uri></list>'),
                       ("/obix/alarm/1/ack", ""), ("/write", "{}"), ("/ack", "{}")):
        assert it.post(path, body, **GUEST) == (403, '{"error": "this user may only look"}'), path
    for path in SPELLINGS:
        status, text = it.post(path, '<obj><real name="value" val="42"/></obj>', "--path-as-is", **GUEST)
        assert status in (400, 403) or "no such object" in text, (path, status, text)
    assert (it.curl(READING)[3], it.flow()) == before
    return f"{len(SPELLINGS)} spellings of a write's path among them"


def wait_for_status(it, attempt, wanted):
    for _ in range(100):
        status = attempt()
        if status == wanted:
            return
        time.sleep(0.1)
    raise AssertionError((status, wanted))


def silent(it):
    """500 links that say nothing: half of them no word of TLS, half of them no request."""
    trust = ssl.create_default_context(cafile=f"{it.room}/plant.crt")
    with contextlib.ExitStack() as held:
        for number in range(500):
            link = held.enter_context(socket.create_connection(("127.0.0.1", it.port), timeout=20))
            if number % 2:
                held.enter_context(trust.wrap_socket(link, server_hostname=NAME))
        link = held.enter_context(socket.create_connection(("127.0.0.1", it.port), timeout=20))
        link = held.enter_context(trust.wrap_socket(link, server_hostname=NAME))
        link.setsockopt(socket.IPPROTO_TCP, socket.TCP_NODELAY, 1)
        times = []
        for _ in range(50):
            began, answer = time.perf_counter(), b""
            link.sendall(f"GET {FLOW} HTTP/1.1\r\nHost: {NAME}\r\nAuthorization: Basic {ANN}\r\n\r\n".encode())
            while not answer.endswith(b"/>"):
                answer += link.recv(65_536)
            assert answer.startswith(b"HTTP/1.1 200 "), answer
            times.append(time.perf_counter() - began)
    return f"another is answered in {statistics.median(times) * 1000:.2f} ms, the median of 50, at most {max(times) * 1000:.2f}"


def page(it):
    """The page of tools/dashboard.py behind nginx."""
    tool = f"{it.examples}/../tools/dashboard.py"
    if not os.path.exists(tool):
        return "not tried, as there is no tools/dashboard.py"
    run = subprocess.Popen([sys.executable, tool, f"http://127.0.0.1:{it.inner}/obix/", "--listen", f"127.0.0.1:{it.page}",
                            "--name", f"{NAME}:{it.port}"], stdout=subprocess.DEVNULL, stderr=subprocess.DEVNULL)
    it.running.callback(lambda: end(run))
    wait_for_status(it, lambda: it.curl("/")[0], 200)
    wait_for(lambda: socket.create_connection(("127.0.0.1", it.page), 1).close())
    write = ("-X", "POST", "-H", "Content-Type: application/json", "-d", f'{{"user": "ann", "point": "{FLOW}", "text": "77"}}')
    assert it.curl("/write", *write, "-H", "Origin: http://evil.example")[0] == 403
    own = it.curl("/write", *write, "-H", f"Origin: https://{NAME}:{it.port}")
    assert own[0] == 200 and it.flow() == "77", own
    events = subprocess.run(["curl", "-s", "-N", "--max-time", "3", "--cacert", f"{it.room}/plant.crt", "-u", "ann:secret", "--resolve",
                             f"{NAME}:{it.port}:127.0.0.1", f"https://{NAME}:{it.port}/events"], capture_output=True).stdout
    assert b"data:" in events, events


def restarted(it):
    end(it.site)
    assert it.curl(FLOW)[0] == 502
    it.open_site()
    assert wait_for_status(it, lambda: it.curl(FLOW)[0], 200) is None and it.flow() == "71.5"


def logged(it):
    with open(f"{it.room}/access.log", encoding="utf-8") as file:
        lines = file.read().splitlines()
    for user in ("ann", "guest"):
        assert any(f"- {user} [" in line and f'"PUT {FLOW} HTTP/1.1" 403' in line for line in lines), user


def main():
    for tool in ("nginx", "curl", "openssl"):                  # each is a package of Debian by this name
        if not shutil.which(tool):
            print(f"front: {tool} is not installed: apt-get install {tool}", file=sys.stderr)
            sys.exit(77)
    with Front(*sys.argv[1:]) as it:
        for name, tries in (("a read over TLS, with its charset", reads), ("other hosts: 421", other_hosts),
                            ("writes of foreign pages: 403, own ones and clients that are no browser: 200", foreign_writes),
                            ("chunked bodies, Expect, HEAD and /obix: 200; 2 MB: 413", forms), ("500 silent clients", silent),
                            ("users and passwords: 401 without", users),
                            ("a user who may only look: reads, watches, queries; writes 403", readers),
                            ("the page for people, and its events", page), ("obix started again: 502 meanwhile", restarted),
                            ("nginx's log has each request, with its user", logged)):
            told = tries(it)
            print(f"ok {name}{'; ' + told if told else ''}", flush=True)


if __name__ == "__main__":
    main()
