"""The tries of bench/package.sh: a package, installed, upgraded, removed and purged in a Debian of its own."""
import re
import shlex
import shutil
import subprocess
import sys
import time
from pathlib import Path

from container import Container, until

POINT = "boiler/flow"
URL = "http://127.0.0.1:8080/obix/"
QUIET = "DEBIAN_FRONTEND=noninteractive"
WRITER = f"""n=0; while [ ! -e /tmp/stop ]; do n=$((n+1))
curl -sf -m 5 -X PUT -H 'Content-Type: text/xml' -d "<real val=\\"$n\\"/>" {URL}{POINT} | grep -q "val=.$n\\b" && echo $n >/tmp/answered; done"""
# What is typed into a bash of the container, where \t asks for completion, and the words that the command then has.
TYPED = (("obix ke\\t", "[keep]"), ("obix help comp\\t", "[help][compact]"), ("obix serve --w\\t4", "[serve][--workers][4]"),
         ("obix check /etc/obix/s\\t", "[check][/etc/obix/site.xml]"))


class Debian(Container):
    """A copy of a Debian's root, with two packages in /packages: the one that is tried, and the same with a later version."""

    def __init__(self, package, root):
        super().__init__("obix-package")
        subprocess.run(["cp", "-a", root, self.root], check=True)
        (self.root / "etc/machine-id").write_text("")
        self.prepare()
        folder = self.root / "packages"
        folder.mkdir()
        shutil.copy(package, folder / "first.deb")
        later = self.room / "later"
        subprocess.run(["dpkg-deb", "-R", package, later], check=True)
        control = later / "DEBIAN/control"
        control.write_text(re.sub(r"(?m)^(Version: .*)$", r"\1+1", control.read_text()))
        subprocess.run(["dpkg-deb", "--root-owner-group", "--build", later, folder / "later.deb"], check=True, stdout=subprocess.DEVNULL)

    def value(self):
        return re.search(r'val="([^"]*)"', self.does(f"curl -sSf -m 5 {URL}{POINT}"))[1]


def is_up(it):
    return it.says(f"curl -sf -m 5 -o /dev/null {URL}about")[0] == 0


def installed(it):
    said = it.does(f"{QUIET} dpkg -i /packages/first.deb")
    assert "warning" not in said, said
    assert it.does("stat -c '%U %G %a' /var/lib/obix").split() == ["obix", "obix", "750"]
    assert it.says("systemctl is-active obix")[1].strip() == "inactive", "a server of an example is started unasked"
    version, kit = re.fullmatch(r"obix (\S+) \((.*)\)\n", it.does("obix --version")).groups()
    assert it.does("dpkg-query -W -f '${Version}' obix").startswith(version), version
    it.does("obix --help | grep -q keep")
    it.does("test -s /usr/share/man/man1/obix.1.gz && test -s /usr/share/doc/obix/copyright && test -s /etc/obix/site.xml")
    units = it.does("ls /usr/lib/systemd/system/obix*").split()
    faults = it.says(f"systemd-analyze verify {' '.join(units)}")[1]
    assert not re.search(r"(?m)^(?!.*(mta|postgres)).*obix", faults), faults
    return f"{len(units)} units, {version}, kit {kit}"


def recommended(it):
    """Debian has what is recommended, by the names that the package says."""
    names = re.findall(r"[a-z0-9][a-z0-9+.-]{2,}(?: \(.*?\))?", it.does("dpkg-query -W -f '${Recommends}' obix"))
    for name in (name.split()[0] for name in names):
        it.does(f"apt-get install -s {name}")
    return f"{len(names)} names"


def completed(it):
    typed = "\\n".join(["obix() { printf '[%s]' \"$@\"; echo; }", *(keys for keys, _ in TYPED), "exit", ""])
    said = it.does(f"printf '%b' {shlex.quote(typed)} | TERM=dumb script -qec 'bash -l' /dev/null")
    for keys, words in TYPED:
        assert words in said.split(), (keys, words, said)


def served(it):
    it.does("systemctl enable --now obix")
    until(lambda: is_up(it), "no answer")
    assert it.does(f"ps -o user= -p {it.number('obix')}").strip() == "obix"
    it.put(POINT, '<real val="64.5"/>')
    it.does("systemctl restart obix")
    until(lambda: is_up(it), "no answer after the restart")
    assert it.value() == "64.5"
    it.does("systemctl start obix-health obix-exporter obix-dashboard")
    until(lambda: "obix_up 1" in it.says("curl -s http://127.0.0.1:9180/metrics")[1], "no figures")
    assert re.search(r"(?m)^obix_record_bytes [1-9]", it.does("curl -s http://127.0.0.1:9180/metrics")), "no size of the record"
    it.does("cp /usr/share/doc/obix/examples/campus.xml /etc/obix/ && systemctl start obix-super.socket")
    told = it.does("curl -sS -m 20 http://127.0.0.1:8090/obix/")
    assert 'name="north" href="/obix/north/" status="ok"' in told, told
    it.does("systemctl stop obix-super.socket; rm /etc/obix/campus.xml")
    it.does("systemctl start obix-compact")
    until(lambda: is_up(it), "no answer after the compaction")
    assert it.value() == "64.5"


def upgraded(it):
    before = it.number("obix")
    it.does(f"rm -f /tmp/stop; (sh -c '{WRITER.replace(chr(39), chr(39) + chr(92) + chr(39) * 2)}' >/dev/null 2>&1 &)")
    until(lambda: it.says("cat /tmp/answered")[0] == 0, "the client writes nothing")
    it.does(f"{QUIET} dpkg -i /packages/later.deb")
    until(lambda: it.number("obix") not in ("0", before) and is_up(it), "the server isn't started again by the upgrade")
    time.sleep(1)
    it.does("touch /tmp/stop; sleep 1")
    last = it.does("cat /tmp/answered").strip()
    assert float(it.value()) >= float(last), (it.value(), last)
    assert "+1" in it.does("dpkg-query -W -f '${Version}' obix")
    return f"{last} writes answered, none lost"


def removed(it):
    value = it.value()
    it.does(f"{QUIET} dpkg -r obix")
    assert it.says("systemctl is-active obix")[1].strip() != "active" and it.says("command -v obix")[0] != 0
    it.does("test -s /var/lib/obix/record && test -s /etc/obix/site.xml")
    it.does(f"{QUIET} dpkg -i /packages/first.deb && systemctl start obix")
    until(lambda: is_up(it), "no answer after it was installed again")
    assert it.value() == value


def changed(it):
    it.does("sed -i 's/^PORT=.*/PORT=8090/' /etc/default/obix && systemctl restart obix")
    until(lambda: it.says("curl -sf -m 5 -o /dev/null http://127.0.0.1:8090/obix/about")[0] == 0, "no answer at another port")
    it.does(f"{QUIET} dpkg -i --force-confdef /packages/later.deb && grep -q PORT=8090 /etc/default/obix")
    it.does("systemctl start obix-health")
    it.does("sed -i 's/^PORT=.*/PORT=8080/' /etc/default/obix && systemctl restart obix")
    until(lambda: is_up(it), "no answer at the port of before")


def moved(it):
    """A folder that a unit with a user of systemd's own has left, as by docs/RUNNING.md without the package."""
    value = it.value()
    it.does("systemctl stop obix && install -d -m 700 /var/lib/private && mv /var/lib/obix /var/lib/private/obix")
    it.does("chown -R 63000:63000 /var/lib/private/obix && ln -s private/obix /var/lib/obix && systemctl start obix")
    until(lambda: is_up(it), "no answer from the moved record")
    assert it.value() == value
    assert it.does("stat -c '%F %U %G' /var/lib/obix /var/lib/obix/record").split("\n")[0] == "directory obix obix"


def purged(it):
    it.does(f"{QUIET} dpkg -P obix")
    it.does("test -s /var/lib/obix/record && ! test -e /etc/obix/site.xml && ! test -e /etc/default/obix")
    it.does(f"{QUIET} dpkg -i /packages/first.deb")
    asked = it.does("echo no | DEBIAN_FRONTEND=teletype dpkg -P obix")
    assert "Remove the record of the oBIX server?" in asked, asked
    it.does(f"test -s /var/lib/obix/record && {QUIET} dpkg -i /packages/first.deb")
    it.does("echo yes | DEBIAN_FRONTEND=teletype dpkg -P obix && ! test -e /var/lib/obix")
    left = it.does("find / -xdev -name '*obix*' -not -path '/proc/*' -not -path '/tmp/*' -not -path '/var/log/*' -not -path '/run/*'").split()
    assert not [name for name in left if "cache/debconf" not in name], left


def judged(package):
    said = subprocess.run(["lintian", "--fail-on", "error,warning", package], capture_output=True, text=True)
    assert said.returncode == 0, said.stdout + said.stderr


TRIES = (("installed: a user, a folder, units, and nothing is started", installed),
         ("Debian has what is recommended", recommended),
         ("completion in a bash", completed),
         ("the server, kept over a restart; figures, page, super at a port, a shorter record", served),
         ("upgraded while a client writes", upgraded),
         ("removed and installed again: the record stays", removed),
         ("another port in /etc/default/obix, kept by an upgrade", changed),
         ("the record of a server that was installed by hand", moved),
         ("purged: the record goes only where somebody says so", purged))


def tried(name, run, *words):
    try:
        told = run(*words)
    except Exception as fault:
        print(f"not ok {name}: {fault}", flush=True)
        raise SystemExit(1) from fault
    print(f"ok {name}{'; ' + told if told else ''}", flush=True)


def main():
    package, root = (Path(word) for word in sys.argv[1:])
    tried("lintian has neither error nor warning", judged, package)
    with Debian(package, root) as it:
        for name, run in TRIES:
            tried(name, run, it)


if __name__ == "__main__":
    main()
