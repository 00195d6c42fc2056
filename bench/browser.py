"""Headless Chromium by its debugging port: a page that is looked at, clicked and typed into. The standard library alone."""
import base64
import http.client
import json
import os
import pathlib
import shutil
import socket
import struct
import subprocess
import tempfile
import time
import urllib.parse


class Socket:
    """The client's end of a WebSocket, as RFC 6455 has it, for whole texts."""

    def __init__(self, url):
        parts = urllib.parse.urlsplit(url)
        self.link = socket.create_connection((parts.hostname, parts.port), timeout=120)
        key = base64.b64encode(os.urandom(16)).decode()
        self.link.sendall(f"GET {parts.path} HTTP/1.1\r\nHost: {parts.netloc}\r\nUpgrade: websocket\r\nConnection: Upgrade\r\n"
                          f"Sec-WebSocket-Key: {key}\r\nSec-WebSocket-Version: 13\r\n\r\n".encode())
        head = b""
        while not head.endswith(b"\r\n\r\n"):
            head += self.take(1)
        assert head.startswith(b"HTTP/1.1 101"), head

    def take(self, size):
        got = bytearray()
        while len(got) < size:
            piece = self.link.recv(size - len(got))
            if not piece:
                raise ConnectionError("the browser has closed its debugging port")
            got += piece
        return bytes(got)

    def send(self, text):
        body, mask = text.encode(), os.urandom(4)
        size = bytes([0x80 | len(body)]) if len(body) < 126 else struct.pack(">BQ", 0xFF, len(body))
        self.link.sendall(b"\x81" + size + mask + bytes(byte ^ mask[at % 4] for at, byte in enumerate(body)))

    def receive(self):
        text = b""
        while True:
            first, second = self.take(2)
            size = second & 127
            size = struct.unpack(">H", self.take(2))[0] if size == 126 else struct.unpack(">Q", self.take(8))[0] if size == 127 else size
            body = self.take(size)
            if first & 15 in (0, 1):
                text += body
                if first & 128:
                    return text.decode()


class Browser:
    def __init__(self, program="chromium"):
        self.room = tempfile.mkdtemp(prefix="obix-browser.")
        words = [shutil.which(program) or program, "--headless=new", "--no-sandbox", "--disable-gpu", "--disable-dev-shm-usage", "--no-first-run",
                 "--disable-background-networking", "--disable-component-update", "--disable-sync", "--hide-scrollbars",
                 "--remote-debugging-port=0", f"--user-data-dir={self.room}", "about:blank"]
        self.run = subprocess.Popen(words, stdout=subprocess.DEVNULL, stderr=subprocess.DEVNULL)
        told = pathlib.Path(self.room, "DevToolsActivePort")
        for _ in range(300):
            if told.exists() and told.read_text().count("\n"):
                break
            time.sleep(0.1)
        self.port = int(told.read_text().split()[0])

    def open(self, url, width=1280, height=900):
        link = http.client.HTTPConnection("127.0.0.1", self.port, timeout=120)
        link.request("PUT", "/json/new?" + urllib.parse.quote("about:blank", safe=":"))
        page = Page(json.loads(link.getresponse().read())["webSocketDebuggerUrl"])
        page.call("Emulation.setLocaleOverride", locale="en-GB")
        page.call("Emulation.setTimezoneOverride", timezoneId="Europe/Berlin")
        page.size(width, height)
        page.go(url)
        return page

    def close(self):
        self.run.terminate()
        self.run.wait(20)
        shutil.rmtree(self.room, ignore_errors=True)


class Page:
    def __init__(self, url):
        self.socket, self.number, self.faults = Socket(url), 0, []
        for part in ("Page", "Runtime", "Log"):
            self.call(f"{part}.enable")

    def call(self, method, **given):
        self.number += 1
        self.socket.send(json.dumps({"id": self.number, "method": method, "params": given}))
        while True:
            told = json.loads(self.socket.receive())
            if told.get("id") == self.number:
                assert "error" not in told, (method, told)
                return told["result"]
            if told.get("method") == "Runtime.exceptionThrown":
                self.faults.append(told["params"]["exceptionDetails"].get("exception", {}).get("description") or str(told["params"]))
            if told.get("method") == "Log.entryAdded" and told["params"]["entry"]["level"] == "error":
                self.faults.append(f"{told['params']['entry']['text']} {told['params']['entry'].get('url', '')}")

    def go(self, url):
        self.call("Page.navigate", url=url)

    def size(self, width, height, is_phone=False):
        self.call("Emulation.setDeviceMetricsOverride", width=width, height=height, deviceScaleFactor=2 if is_phone else 1, mobile=is_phone)

    def scheme(self, name):
        self.call("Emulation.setEmulatedMedia", features=[{"name": "prefers-color-scheme", "value": name}])

    def js(self, text):
        told = self.call("Runtime.evaluate", expression=text, returnByValue=True, awaitPromise=True)
        assert "exceptionDetails" not in told, (text, told)
        return told["result"].get("value")

    def until(self, text, seconds=30):
        """Whether a JavaScript expression becomes true in time; one that can't be evaluated yet isn't."""
        end = time.monotonic() + seconds
        while time.monotonic() < end:
            if self.call("Runtime.evaluate", expression=f"!!({text})", returnByValue=True)["result"].get("value") is True:
                return True
            time.sleep(0.05)
        return False

    def click(self, found):
        """A click of the mouse in the middle of what a JavaScript expression finds."""
        x, y = self.js(f"(() => {{ const it = {found}; it.scrollIntoView({{ block: 'center' }}); const box = it.getBoundingClientRect();"
                       " return [box.x + box.width / 2, box.y + box.height / 2]; })()")
        for kind in ("mousePressed", "mouseReleased"):
            self.call("Input.dispatchMouseEvent", type=kind, x=x, y=y, button="left", clickCount=1)

    def type(self, text):
        self.call("Input.insertText", text=text)

    def key(self, name, code=0, text=""):
        for kind in ("keyDown", "keyUp"):
            self.call("Input.dispatchKeyEvent", type=kind, key=name, code=name, windowsVirtualKeyCode=code, text=text if kind == "keyDown" else "")

    def shot(self, path, clip=None):
        given = {"clip": {**clip, "scale": 1}} if clip else {}
        pathlib.Path(path).write_bytes(base64.b64decode(self.call("Page.captureScreenshot", format="png", **given)["data"]))
