"""A folder in which the commands of a page run as printed, for bench/pages.py.

What the commands name outside of the checkout (/etc/obix, /var/lib/obix and so on) lies in the folder. `sudo`, `systemctl`, `nginx`
and `systemd-analyze` are stand-ins there, and the ports are free ones of 127.0.0.1: nothing else of the machine is changed.
"""
import os
import re
import shutil
import signal
import socket
import subprocess
import tempfile
import time
from pathlib import Path

PORTS = ("443", "8080", "8081", "8082", "8090", "9180")
PLACES = (("/usr/local/bin/obix", "/bin/obix"), *((it, it) for it in ("/usr/local/lib/obix", "/etc/obix", "/etc/nginx", "/etc/systemd", "/var/lib/obix")))
STAND_INS = {
    "sudo": 'exec "$@"',
    "systemctl": '[ "$*" = "reload nginx" ] && if [ -s {at}/nginx/pid ]; then exec nginx -s reload; else exec nginx; fi',
    "nginx": "sed -e 's|/etc/obix/|{at}/etc/obix/|; s|listen 443 |listen 127.0.0.1:{443} |; s|server 127.0.0.1:8080;|server 127.0.0.1:{8080};|'"
             " -e 's|server 127.0.0.1:8081;|server 127.0.0.1:{8081};|' {at}/etc/nginx/conf.d/obix.conf > {at}/nginx/obix.conf\n"
             "exec {real} -e {at}/nginx/error.log -p {at}/nginx/ -c {at}/nginx/nginx.conf \"$@\"",
    "systemd-analyze": "sed -i 's|/usr/local/|{at}/usr/local/|g' {at}/etc/systemd/system/*\nexec {real} \"$@\"",
}
NGINX = """{user} worker_processes 2; pid {at}/nginx/pid; error_log {at}/nginx/error.log;
events {{ worker_connections 256; }}
http {{ access_log {at}/nginx/access.log;
client_body_temp_path b; proxy_temp_path p; fastcgi_temp_path f; scgi_temp_path s; uwsgi_temp_path u; include {at}/nginx/obix.conf; }}
"""


def free_ports(names):
    held = [socket.socket() for _ in names]
    [it.bind(("127.0.0.1", 0)) for it in held]
    ports = dict(zip(names, (str(it.getsockname()[1]) for it in held)))
    [it.close() for it in held]
    return ports


class Room:
    """The folder, and what was started in it, which ends with the `with` block."""

    def __init__(self, top, program):
        self.folder = tempfile.TemporaryDirectory(prefix="obix-pages.")
        self.at, self.running, self.ports = Path(self.folder.name), {}, free_ports(PORTS)
        self.at.chmod(0o755)                                   # nginx's own user reads the file of users
        for name in ("examples", "docs", "tools", "bench"):
            (self.at / name).symlink_to(top / name)
        for place in ("etc/obix", "etc/nginx/conf.d", "etc/systemd/system", "var/lib/obix", "nginx", "bin", "out/bin", "usr/local/bin"):
            (self.at / place).mkdir(parents=True)
        for place in ("obix", "out/bin/obix", "bin/obix", "usr/local/bin/obix"):
            (self.at / place).symlink_to(program)
        (self.at / "nginx/nginx.conf").write_text(NGINX.format(at=self.at, user="" if os.geteuid() else "user www-data;"))
        path = f"{os.environ['PATH']}:/usr/sbin"
        for name, text in STAND_INS.items():
            text = text.replace("{at}", str(self.at)).replace("{real}", shutil.which(name, path=path) or "false")
            (self.at / "bin" / name).write_text("#!/bin/sh\n" + re.sub(r"\{(\d+)\}", lambda it: self.ports[it[1]], text) + "\n")
            (self.at / "bin" / name).chmod(0o755)
        self.environment = {**os.environ, "PATH": f"{self.at}/bin:{path}", "USER": os.environ.get("USER") or str(os.geteuid())}

    def __enter__(self):
        return self

    def __exit__(self, *fault):
        for port in list(self.running):
            self.end(port)
        self.end_nginx(self.at / "nginx/pid")
        self.folder.cleanup()

    def end_nginx(self, pid):
        number = pid.exists() and pid.read_text().strip()      # `nginx -t` leaves it empty
        if number:
            os.kill(int(number), signal.SIGTERM)
        for _ in range(100 if number else 0):
            if pid.exists():
                time.sleep(0.05)

    def here(self, command):
        """The command with this room's ports and places."""
        command = re.sub(r"\bplant\.example/", f"plant.example:{self.ports['443']}/", command)
        command = re.sub(rf"\b({'|'.join(PORTS)})\b", lambda it: self.ports[it[1]], command)
        for old, new in PLACES:
            command = re.sub(rf"(?<![\w.]){old}\b", f"{self.at}{new}", command)
        return command

    def run(self, command):
        """Status and output. There is no terminal, so what asks for a password at one reads it from standard input."""
        command = command.removesuffix("; echo")               # a line feed, and its own status
        if command.startswith("curl ") and " -w " not in command:
            command = f"curl -f {command[5:]}"                 # a status of HTTP that is no success is one of curl's
        typed = b"secret\nsecret\n" if "openssl passwd" in command else b"secret\n" if " -u " in command else b""
        done = subprocess.run(["bash", "-o", "pipefail", "-c", self.here(command)], cwd=self.at, env=self.environment, input=typed,
                              capture_output=True, timeout=120, start_new_session=True)
        return done.returncode, re.sub(r"(Enter host password|(Verifying - )?Password).*:\s*", "", (done.stdout + done.stderr).decode())

    def start(self, command):
        """Starts what doesn't end by itself, in place of what this room has at its port."""
        command = self.here(command)
        port = (re.findall(rf"\b({'|'.join(self.ports.values())})\b", command) or ["0"])[-1]      # 0: none of PORTS
        self.end(port)
        run = subprocess.Popen(["bash", "-c", f"exec {command}"], cwd=self.at, env=self.environment, stdout=subprocess.PIPE,
                               stderr=subprocess.STDOUT, text=True)
        self.running[port] = run, command
        return run, port

    def end(self, port):
        """Ends what this room has at a port, and gives its command."""
        run, command = self.running.pop(port, (None, None))
        if run:
            run.terminate()
            run.wait(20)
            run.stdout.close()
        return command
