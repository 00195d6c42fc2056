"""A real systemd in a container of its own, without a network, for bench/units.sh and bench/package.sh."""
import os
import re
import shutil
import subprocess
import sys
import tempfile
import time
from pathlib import Path

NOT_WANTED = ("systemd-networkd", "systemd-resolved", "console-getty", "getty@tty1", "systemd-timesyncd")
GROUPS = ("/sys/fs/cgroup/systemd", "/sys/fs/cgroup/unified", "/sys/fs/cgroup")


class Container:
    """What `root` holds, started until the `with` block ends. `mounts` are further words for systemd-nspawn."""

    def __init__(self, name):
        self.room = Path(tempfile.mkdtemp(prefix=f"{name}."))
        self.root, self.mounts = self.room / "root", []
        self.groups = [] if Path("/run/systemd/system").exists() else [
            Path(it, self.room.name) for it in GROUPS if Path(it, "cgroup.procs").exists()]

    def prepare(self):
        """The target that is started, and the services that are not."""
        units = self.root / "etc/systemd/system"
        (units / "default.target").symlink_to("/usr/lib/systemd/system/multi-user.target")
        for name in NOT_WANTED:
            (units / f"{name}.service").symlink_to("/dev/null")

    def join(self):
        """Where no systemd of this machine gives the container a control group, it gets one of its own."""
        for group in self.groups:
            (group / "cgroup.procs").write_text(str(os.getpid()))

    def __enter__(self):
        for group in self.groups:
            group.mkdir()
        words = ["systemd-nspawn", "-q", "-D", str(self.root), *self.mounts, "--private-network",
                 "--register=no", f"--machine={re.sub('[^a-z0-9]', '-', self.room.name)}", "--console=pipe",
                 *["--keep-unit"] * bool(self.groups), "--boot"]
        self.log = open(self.room / "log", "w", encoding="utf-8")
        self.run = subprocess.Popen(words, stdin=subprocess.DEVNULL, stdout=self.log, stderr=self.log, preexec_fn=self.join)
        try:
            until(lambda: self.says("systemctl is-system-running")[1].strip() in ("running", "degraded"), "systemd doesn't come up", 60)
        except BaseException:
            sys.stderr.write((self.room / "log").read_text(encoding="utf-8"))
            self.__exit__()
            raise
        return self

    def __exit__(self, *fault):
        self.says("systemctl poweroff")
        try:
            self.run.wait(20)
        except subprocess.TimeoutExpired:
            self.run.kill()
            self.run.wait()
        self.log.close()
        for group in self.groups:
            subprocess.run(["find", group, "-depth", "-type", "d", "-exec", "rmdir", "{}", ";"], check=False)
        shutil.rmtree(self.room)

    def says(self, command):
        """The status of a command in the container, and its output."""
        leader = Path(f"/proc/{self.run.pid}/task/{self.run.pid}/children").read_text().split() if self.run.poll() is None else []
        if not leader:
            return 1, ""
        inside = ["nsenter", "-t", leader[0], "-m", "-u", "-i", "-n", "-p", "-C", "env", "-i", "PATH=/usr/local/bin:/usr/bin:/usr/sbin"]
        done = subprocess.run([*inside, "sh", "-c", command], capture_output=True, text=True)
        return done.returncode, done.stdout + done.stderr

    def does(self, command):
        status, said = self.says(command)
        assert status == 0, (command, status, said)
        return said

    def put(self, path, body):
        return self.does(f"curl -sS -m 5 -X PUT -H 'Content-Type: text/xml' -d '{body}' http://127.0.0.1:8080/obix/{path}")

    def number(self, unit):
        return self.does(f"systemctl show -p MainPID --value {unit}").strip()


def until(holds, why, seconds=20):
    for _ in range(seconds * 5):
        if holds():
            return
        time.sleep(0.2)
    raise AssertionError(why)
