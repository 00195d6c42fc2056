#!/usr/bin/env python3
"""The plant in a browser: alarms and their acknowledgement, live values and their writing, trends.

    python3 tools/dashboard.py http://127.0.0.1:8080/obix/ --listen 127.0.0.1:8081 --measured '/obix/*/flow' --site plant.xml

It stands beside `obix` as a client of it: `obix` is proved, this program is not. It is plain Python with its standard
library, and is tried in a browser by bench/dashboard.sh. It needs link.py, follow.py, plant.py and dashboard.html beside it.

One watch and two connections serve all browsers. There are no passwords: who reaches the page can write. So it listens
on this machine alone unless it is told otherwise, and refuses requests that are addressed to another host (421) or come
from a page of another one (403). It prints a line for each write and acknowledgement, with the name that was given.

statuses, as those of `obix`:
  0  ended by Ctrl-C or SIGTERM; its watch is deleted
  1  the words are no command, or the file of --site can't be read
  7  no server answers at the start (with --wait it goes on trying)
  8  what answers at the start is no lobby of an oBIX server, or gives no watch
  9  the address of --listen can't be had
"""
import argparse
import base64
import csv
import hashlib
import http.server
import io
import json
import pathlib
import re
import signal
import socket
import sys
import threading
import time
import urllib.parse

from plant import LOST, Plant, Refused, limits_of, words

READERS = 500                                              # browsers at once
PLOTTED = 1200                                             # about so many values of a trend
LOOPBACK = ("127.0.0.1", "localhost", "[::1]")
SIGN_OF_LIFE = 10                                          # seconds after which a page hears something, though nothing is new
PAGE = pathlib.Path(__file__).with_suffix(".html").read_bytes()
OWN = " ".join(f"'sha256-{base64.b64encode(hashlib.sha256(part).digest()).decode()}'"
               for part in re.findall(rb"<(?:style|script)>(.*?)</(?:style|script)>", PAGE, re.S))
FIELDS = {"Cache-Control": "no-store", "X-Content-Type-Options": "nosniff", "Referrer-Policy": "no-referrer",
          "Content-Security-Policy": f"default-src 'none'; script-src {OWN}; style-src {OWN}; connect-src 'self'; img-src data:; "
                                     "base-uri 'none'; form-action 'none'; frame-ancestors 'none'"}


def log(text):
    shown = "".join(it if it.isprintable() else it.encode("unicode_escape").decode() for it in text)
    print(time.strftime("%Y-%m-%dT%H:%M:%S"), shown.encode(sys.stdout.encoding, "backslashreplace").decode(sys.stdout.encoding), flush=True)


def thinned(pairs):
    """Of each stretch that a plot can't resolve the least value, or the gap, and the greatest."""
    size = len(pairs) // PLOTTED + 1
    parts = [sorted(pairs[at:at + size], key=lambda pair: (pair[1] is not None, pair[1])) for at in range(0, len(pairs), size)]
    return pairs if size == 1 else [pair for part in parts for pair in sorted((part[0], part[-1]), key=lambda pair: pair[0])]


def as_csv(rows):
    """Rows as a spreadsheet reads them."""
    text = io.StringIO()
    csv.writer(text).writerows([("time", "value"), *rows])
    return text.getvalue().encode()


class Page(http.server.BaseHTTPRequestHandler):
    protocol_version, server_version, sys_version, timeout = "HTTP/1.1", "dashboard", "", 30
    disable_nagle_algorithm, readers = True, threading.BoundedSemaphore(READERS)

    def log_message(self, *_):
        pass

    def head(self, status, **fields):
        self.send_response(status)
        for name, value in {**FIELDS, **fields}.items():
            self.send_header(name.replace("_", "-"), value)
        self.end_headers()

    def reply(self, status, body, media="text/csv; charset=utf-8"):
        if not isinstance(body, bytes):
            body, media = json.dumps(body).encode(), "application/json"
        self.head(status, Content_Type=media, Content_Length=len(body))
        self.wfile.write(body)

    def refuse(self, status, said):
        self.close_connection = True                       # its body isn't read
        self.reply(status, {"error": said})

    def is_welcome(self):
        """Whether it is addressed to this page, and comes from no page of another host."""
        host, origin = self.headers.get("Host", "").lower(), self.headers.get("Origin", "").lower()
        is_foreign = self.path != "/" and self.headers.get("Sec-Fetch-Site") in ("cross-site", "same-site")
        if host not in self.names:
            self.refuse(421, "this isn't the host of that name; another name is given by --name")
        elif is_foreign or origin and origin.partition("://")[2] != host:
            self.refuse(403, "this comes from a page of another host")
        else:
            return True
        return False

    def do_GET(self):
        path, _, query = self.path.partition("?")
        if not self.is_welcome():
            return
        if path == "/":
            self.reply(200, PAGE, "text/html; charset=utf-8")
        elif path == "/events":
            self.events()
        elif path in ("/trend", "/csv"):
            asked = dict(urllib.parse.parse_qsl(query))
            show, of = (thinned, self.plant.trend) if path == "/trend" else (as_csv, self.plant.rows)
            self.answer(lambda: show(of(asked["point"], float(asked["from"]), float(asked["to"]))))
        else:
            self.refuse(404, "not here")

    def do_POST(self):
        size = self.headers.get("Content-Length", "")
        if not self.is_welcome():
            return
        if self.path not in ("/write", "/ack"):
            self.refuse(404, "not here")
        elif self.headers.get_content_type() != "application/json" or not re.fullmatch("[0-9]{1,5}", size):
            self.refuse(415, "a small JSON object is wanted")
        else:
            text = self.rfile.read(int(size))
            self.answer(lambda: self.act(**json.loads(text)))

    def act(self, user, text=None, point=None, alarm=None):
        """Writes a point, or acknowledges an alarm."""
        did, said = f"{self.client_address[0]} {user!r} {self.path} {point or alarm} {text or ''}".rstrip(), "no such request"
        try:
            if self.path == "/write":
                if not isinstance(text, str):
                    raise TypeError("no text")
                self.plant.write(point, text)
            else:
                self.plant.acknowledge(alarm, user)
            said = "done"
        except (*LOST, Refused) as fault:
            said = words(fault)
            raise
        finally:
            log(f"{did}: {said}")

    def answer(self, wanted):
        try:
            status, body = 200, wanted()
        except Refused as fault:
            status, body = 409, {"error": str(fault)}
        except LOST as fault:
            status, body = 502, {"error": f"the oBIX server doesn't answer: {words(fault)}"}
        except (AttributeError, KeyError, TypeError, ValueError):
            status, body = 400, {"error": "no such request"}
        self.reply(status, body)

    def events(self):
        """All that is held, and then what is new, as it comes."""
        if not self.readers.acquire(blocking=False):
            return self.refuse(503, f"{READERS} browsers look at it already")
        version, self.close_connection = 0, True
        try:
            self.head(200, Content_Type="text/event-stream", Connection="close", X_Accel_Buffering="no")     # nginx would keep it back
            while True:
                text, version = self.plant.since(version)
                self.wfile.write(f"id: {time.time() * 1000:.0f}\ndata: {text}\n\n".encode())
                with self.plant.news:
                    self.plant.news.wait_for(lambda: self.plant.version != version, SIGN_OF_LIFE)
        finally:
            self.readers.release()


class Door(http.server.ThreadingHTTPServer):
    request_queue_size = 128

    def handle_error(self, *asked):
        if not isinstance(sys.exc_info()[1], OSError):     # else a browser that went away
            super().handle_error(*asked)


def fail(status, said):
    print(f"dashboard: {said}", file=sys.stderr)
    return status


def address(text):
    host, _, port = text.rpartition(":")
    if not host or not re.fullmatch("[0-9]{1,5}", port) or int(port) > 65535:
        raise argparse.ArgumentTypeError(f"{text} is no HOST:PORT")
    return host.strip("[]"), int(port)


def site(text):
    parts = urllib.parse.urlsplit(text)
    if parts.scheme != "http" or not parts.hostname or not text.isascii():
        raise argparse.ArgumentTypeError(f"{text} is no URL such as http://127.0.0.1:8080/obix/")
    return parts._replace(path=parts.path or "/").geturl()


def main():
    about, _, statuses = __doc__.partition("\nstatuses")
    asked = argparse.ArgumentParser(description=about, epilog="statuses" + statuses, formatter_class=argparse.RawDescriptionHelpFormatter)
    asked.error = lambda message: asked.exit(1, f"{asked.format_usage()}{asked.prog}: {message}\n")
    asked.add_argument("url", type=site, help="the lobby of the server")
    asked.add_argument("--listen", type=address, default="127.0.0.1:8081", metavar="HOST:PORT", help="if not given 127.0.0.1:8081")
    asked.add_argument("--name", action="append", default=[], metavar="HOST[:PORT]", help="a further name that browsers use")
    asked.add_argument("--every", type=float, default=1.0, metavar="SECONDS", help="between two polls; if not given 1")
    asked.add_argument("--wait", action="store_true", help="begin though no server is there yet")
    asked.add_argument("--measured", action="extend", nargs="+", default=[], metavar="NAME",
                       help="points that the page doesn't write: their paths or names, or patterns such as '/obix/*/flow' or 'Temp*'")
    asked.add_argument("--site", metavar="SITEFILE", help="the server's site file: an alarm is shown with the limit that was crossed")
    given = asked.parse_args()
    host, port = given.listen
    if host in ("0.0.0.0", "::") and not given.name:
        asked.error("--name has to say by which names browsers call it")
    try:
        Door.address_family = socket.AF_INET6 if ":" in host else socket.AF_INET
        door = Door((host, port), Page)
    except (OSError, UnicodeError) as fault:
        return fail(9, f"{host}:{port}: {words(fault)}")
    host, port = f"[{host}]" if ":" in host else host, door.server_address[1]
    hosts = {host, *(LOOPBACK if host in LOOPBACK else ())}
    Page.names = {f"{name}:{port}" for name in {*hosts, *given.name}} | {*given.name} | (hosts if port == 80 else set())
    try:
        limits = limits_of(given.site) if given.site else {}
    except (OSError, Refused) as fault:
        return fail(1, f"{given.site}: {words(fault)}")
    Page.plant = plant = Plant(given.url, max(given.every, 0.1), log, limits, given.measured)
    signal.signal(signal.SIGTERM, signal.default_int_handler)
    try:
        if not given.wait:
            plant.open()
        threading.Thread(target=door.serve_forever, daemon=True).start()
        log(f"listening at http://{host}:{port}/")
        plant.run()
    except LOST as fault:
        return fail(7, f"{given.url}: {words(fault)}")
    except Refused as fault:
        return fail(8, f"{given.url}: {words(fault)}")
    except KeyboardInterrupt:
        signal.signal(signal.SIGINT, signal.SIG_IGN)
        signal.signal(signal.SIGTERM, signal.SIG_IGN)
        plant.end()
    return 0


if __name__ == "__main__":
    sys.exit(main())
