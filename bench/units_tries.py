"""The tries of bench/units.sh: a folder with the machine's own /usr is the root of a systemd, in which the units are started."""
import re
import shutil
import subprocess
import sys
import time
from pathlib import Path

from container import Container, until

ETC = ("passwd", "group", "shadow", "nsswitch.conf", "ld.so.cache", "ld.so.conf", "ld.so.conf.d", "alternatives", "dbus-1", "localtime")
FOLDERS = ("usr", "etc/systemd/system", "etc/obix", "var/lib", "var/log", "var/tmp", "run", "tmp", "proc", "sys", "dev", "root", "home")
FLOW = "http://127.0.0.1:8080/obix/boiler/flow"


class Machine(Container):
    """The units of a checkout and a program, as docs/RUNNING.md installs them."""

    def __init__(self, top, program):
        super().__init__("obix-units")
        self.top, self.local = Path(top), self.room / "local"
        self.mounts = ["--bind-ro=/usr", f"--bind={self.local}:/usr/local"]
        for folder in FOLDERS:
            (self.root / folder).mkdir(parents=True)
        for name in ("bin", "sbin", "lib", "lib64"):
            (self.root / name).symlink_to(f"usr/{name}")
        for name in ETC:
            subprocess.run(["cp", "-a", f"/etc/{name}", self.root / "etc"], check=False, stderr=subprocess.DEVNULL)
        shutil.copy("/usr/lib/os-release", self.root / "etc/os-release")
        (self.root / "etc/machine-id").touch()
        self.prepare()
        self.install(program, self.root / "etc/systemd/system")

    def install(self, program, units):
        """What docs/RUNNING.md copies."""
        (self.local / "bin").mkdir(parents=True)
        shutil.copy(program, self.local / "bin/obix")
        shutil.copytree(self.top / "tools", self.local / "lib/obix")
        for it in (self.top / "examples").iterdir():
            if it.suffix in (".service", ".timer", ".socket"):
                shutil.copy(it, units)
            elif it.name in ("plant-room.xml", "campus.xml"):
                shutil.copy(it, self.root / "etc/obix")


def is_up(it, url=FLOW):
    return it.says(f"curl -sf -m 5 -o /dev/null {url}")[0] == 0


def served(it):
    it.does("systemctl enable --now obix")
    until(lambda: is_up(it), "no answer")
    assert 'val="72.5"' in it.put("boiler/flow", '<real val="72.5"/>')
    it.does("systemctl restart obix")
    until(lambda: is_up(it), "no answer after the restart")
    assert 'val="72.5"' in it.does(f"curl -s {FLOW}")
    assert "record.before" in it.does("ls /var/lib/obix/")


def shown(it):
    it.does("systemctl enable --now obix-dashboard obix-exporter")
    until(lambda: is_up(it, "-H 'Host: plant.example' http://127.0.0.1:8081/"), "no page")
    until(lambda: is_up(it, "http://127.0.0.1:9180/metrics"), "no metrics")
    assert "obix_up 1" in it.does("curl -s http://127.0.0.1:9180/metrics")
    touched = it.says(f"nsenter -t {it.number('obix-exporter')} -m touch /var/lib/obix/record")
    assert touched[0] and "Read-only" in touched[1], touched


def looked_at(it):
    before = it.number("obix")
    it.does("systemctl start obix-health")
    assert it.number("obix") == before
    it.does(f"systemctl stop obix-dashboard obix-exporter; kill -STOP {before}")
    began = time.monotonic()
    assert it.says("systemctl start obix-health")[0] != 0
    until(lambda: is_up(it), "a server that hangs isn't restarted")
    assert it.number("obix") != before and 'val="72.5"' in it.does(f"curl -s {FLOW}")
    took = time.monotonic() - began
    it.does("systemctl stop obix && systemctl start obix-health")
    assert it.says("systemctl is-active obix")[1].strip() == "inactive", "a server that was stopped is started"
    it.does("systemctl start obix && systemctl enable --now obix-health.timer")
    until(lambda: is_up(it), "no answer")
    return f"restarted after {took:.0f} s"


def compacted(it):
    for speed in range(20):
        it.put("pump1/speed", f'<int val="{speed}"/>')
    it.does("systemctl start obix-compact")
    until(lambda: is_up(it), "the server doesn't come back")
    said = it.does("journalctl --no-pager -o cat -u obix-compact")
    kept, there = (int(number) for number in re.search(r"compacted (\d+) of (\d+)", said).groups())
    assert kept < 8 and there > 20, said                       # one write of each point, and some of numbers of watches
    assert 'val="19"' in it.does("curl -s http://127.0.0.1:8080/obix/pump1/speed") and 'val="72.5"' in it.does(f"curl -s {FLOW}")


def joined(it):
    it.does("systemctl enable --now obix-super.socket")
    told = it.does("curl -sS -m 20 http://127.0.0.1:8090/obix/")
    assert 'name="north" href="/obix/north/" status="ok"' in told and 'status="down"' in told, told


def main():
    with Machine(*sys.argv[1:]) as it:
        for name, tries in (("the server: a write outlives a restart", served),
                            ("the page and the metrics; the record can't be written from there", shown),
                            ("a server that hangs is restarted, one that was stopped isn't", looked_at),
                            ("a shorter record, and the server is back", compacted),
                            ("several servers as one tree, at a port", joined)):
            told = tries(it)
            print(f"ok {name}{'; ' + told if told else ''}", flush=True)
        failed = it.does("systemctl list-units --no-legend --failed 'obix*' || true").strip()
        assert not failed or "obix-health" in failed, failed


if __name__ == "__main__":
    main()
