"""The runs of bench/pages.sh. All traffic is on 127.0.0.1, on free ports in place of those that the pages name."""
import os
import re
import shutil
import subprocess
import sys
import tempfile
import time
import urllib.error
import urllib.request
from pathlib import Path

from pages_room import Room

PAGES = ("README.md", "examples/README.md", "docs/RUNNING.md", "docs/obix.1")
NOT_HERE = ((r"rt |RT_JOBS=|\./obix --prove", "needs the kit, for an hour"), (r"cd crates/", "needs the kit"),
            (r"sudoedit ", "needs a person"),
            (r"dev/package\.sh|sha256sum obix_", "needs the proved program; bench/package.sh tries it"),
            (r".*systemctl (enable|status|daemon-reload)", "needs systemd as the first process"))
OUTSIDE = re.compile(r"(?<![\w./-])/(?!dev/null|tmp/)[a-z]|\bapt|systemctl (?!(reload nginx|stop obix|start obix)$)")      # of the room
PRINTED = re.compile(r"(?:listening|served|legal|illegal|compacted|403|obix:) ?\S*.*")
TIME = re.compile(r"\d{4}-\d\d-\d\dT[\d:.]*Z *")
README_LINES = 130


class Told:
    """What has been found so far."""

    failed = 0

    def ok(self, what):
        print(f"ok {what}", flush=True)

    def skipped(self, what, why):
        print(f"skipped {what} ({why})", flush=True)

    def not_ok(self, what, why):
        self.failed += 1
        print(f"not ok {what}\n    {why}", flush=True)


class Block:
    """The commands of a block of shell lines, and the text of the block behind it that shows what the last one prints."""

    def __init__(self, lines):
        self.commands = [it for it in re.sub(r"\\\n\s*", "", "\n".join(lines)).split("\n") if it.strip() and not it.startswith("#")]
        self.shown, self.begins = None, False


def blocks_of(path):
    """The blocks of a page."""
    found, inside, lines, before = [], None, [], ""
    manual = path.suffix == ".1"
    for line in path.read_text(encoding="utf-8").split("\n"):
        fence = line.startswith((".Bd -literal", ".Ed")) if manual else line.startswith("```")
        if fence and inside is None:
            inside, lines = "sh" if manual else line[3:].strip(), []
        elif fence:
            if inside == "sh":
                found.append(Block([it.replace("\\e", "\\") for it in lines]))
            elif not inside and found and found[-1].shown is None:
                found[-1].shown, found[-1].begins = "\n".join(lines), before.endswith("begins")
            inside = None
        elif inside is not None:
            lines.append(line)
        elif manual and line.startswith(".Dl obix "):
            found.append(Block([line[4:]]))
        elif line.strip():
            before = line.strip()
    return found


def is_answered(port, path):
    for _ in range(100):
        try:
            return urllib.request.urlopen(f"http://127.0.0.1:{port}{path}", timeout=5).status == 200
        except urllib.error.HTTPError:
            return False
        except OSError:
            time.sleep(0.1)
    return False


def told_of(comment):
    """The line and the status that a comment behind a command says, if it does."""
    status = re.search(r"\bstatus (\d+)", comment)
    line = re.sub(r",? *status \d+.*", "", comment).strip()
    return line if PRINTED.fullmatch(line) else None, int(status[1]) if status else 0


def same(printed, shown, begins):
    printed, shown = (TIME.sub("TIME ", it.replace("\r", "")).strip() for it in (printed, shown))
    return printed.startswith(shown) if begins else printed == shown


def is_not_here(room, text):
    """Why a command can't be run here, if it can't."""
    gone = next((it for it in re.findall(r"\btools/\S+\.py", text) if not (room.at / it).exists()), None)
    return (next((why for form, why in NOT_HERE if re.match(form, text)), None) or (gone and f"no {gone}")
            or next((f"no {it}" for it in ("nginx", "systemd-analyze", "systemd-socket-activate")
                     if it in text and not shutil.which(it, path=f"{os.environ['PATH']}:/usr/sbin")), None)
            or ("needs root" if "www-data" in text and os.geteuid() else None)
            or ("changes the machine" if "sudo" in text and OUTSIDE.search(room.here(text)) else None))


def judge_server(told, room, what, text, wanted):
    """Starts a server, a page, an exporter or a listener, and says whether it comes up; or stops or starts the service."""
    if text.endswith("systemctl stop obix"):
        room.service = room.end(room.ports["8080"])
        return told.ok(what) if room.service else told.not_ok(what, "it doesn't run")
    run, port = room.start(room.service if text.endswith("systemctl start obix") else text)
    if "tools/" in text or "socket-activate" in text:
        good = is_answered(port, "/metrics" if "exporter" in text else "/obix/" if "socket" in text else "/")
        return told.ok(what) if good else told.not_ok(what, "its page isn't answered")
    first = run.stdout.readline().strip()
    wanted = room.here(wanted or "listening 127.0.0.1 8080")
    return told.ok(what) if first == wanted else told.not_ok(what, f"printed {first!r}, not {wanted!r}")


SERVER = re.compile(r"(\./)?obix (serve|keep) |.*tools/(dashboard|exporter)\.py |systemd-socket-activate |sudo systemctl (stop|start) obix$")


def judge(told, room, page, command, block):
    """Runs one command, and says whether it does what the page says."""
    text, _, comment = command.partition(" # ") if " # " in command else (command, "", "")
    text, what = text.strip(), f"{page}: {command.split('  ')[0].strip()}"
    line, status = told_of(comment.strip())
    why = is_not_here(room, text)
    if why:
        return told.skipped(what, why)
    if SERVER.match(text):
        return judge_server(told, room, what, text, line)
    at, printed = room.run(text)
    if at != status:
        return told.not_ok(what, f"status {at}, not {status}: {printed.strip()[-300:]}")
    if line and printed.strip() != room.here(line):
        return told.not_ok(what, f"printed {printed.strip()!r}, not {line!r}")
    asked = re.search(r"stdio examples/plant-room.xml < (examples/\w+)\.http$", text)
    if asked and not same(printed, (room.at / f"{asked[1]}.out").read_text(encoding="utf-8"), False):
        return told.not_ok(what, f"isn't {asked[1]}.out")
    block.printed = printed
    return told.ok(what)


def run_page(told, top, program, page):
    with Room(top, program) as room:
        for block in blocks_of(top / page):
            block.printed = None
            for command in block.commands:
                judge(told, room, page, command, block)
            if block.shown is not None and block.printed is not None:
                what = f"{page}: what {block.commands[0].split('  ')[0][:60]} prints"
                if same(block.printed, block.shown, block.begins):
                    told.ok(what)
                else:
                    told.not_ok(what, f"printed {block.printed!r}")


def pages_of(top):
    """All pages but those of the crates."""
    return [*sorted(top.glob("*.md")), *sorted(top.glob("docs/*.md")), *(top / it / "README.md" for it in ("examples", "tools", "bench"))]


def look_at_links(told, top):
    """Whether each file that a page leads to is there, and each page that it names in words."""
    for page in pages_of(top):
        text = page.read_text(encoding="utf-8")
        gone = [it for it in re.findall(r"\]\(([^)#:]+)\)", text) if not (page.parent / it).exists()]
        name = page.relative_to(top)
        if gone:
            told.not_ok(f"{name}: links", f"not there: {', '.join(gone)}")
        else:
            told.ok(f"{name}: links")


def look_at_form(told, top):
    """The README's number of lines; how long lines and cells of the pages are."""
    lines = (top / "README.md").read_text(encoding="utf-8").count("\n")
    if lines <= README_LINES:
        told.ok(f"README.md: {lines} lines")
    else:
        told.not_ok("README.md: its size", f"{lines} lines")
    look_by(told, "lines and cells of the pages", [sys.executable, str(top / "dev/pages_check.py"), *map(str, pages_of(top))])


def look_at_counts(told, top):
    """Whether docs/TESTING.md has the counts of the files."""
    run = subprocess.run([sys.executable, str(top / "bench/counts.py")], capture_output=True, text=True)
    if run.returncode == 0:
        told.ok("docs/TESTING.md: its counts")
    else:
        told.not_ok("docs/TESTING.md: its counts", "; ".join(it for it in run.stdout.splitlines() if "the page has" in it))


def look_by(told, what, words):
    """Whether a tool of the machine has nothing to say of a file."""
    if not shutil.which(words[0]):
        return told.skipped(what, f"no {words[0]}")
    run = subprocess.run(words, capture_output=True, text=True)
    said = (run.stdout + run.stderr).strip()
    return told.ok(what) if run.returncode == 0 else told.not_ok(what, said)


def look_at_files(told, top, program):
    """The manual page by mandoc; the units by systemd, with this program and these tools in the places that they name."""
    look_by(told, "docs/obix.1: mandoc", ["mandoc", "-T", "lint", "-W", "style", str(top / "docs/obix.1")])
    with tempfile.TemporaryDirectory(prefix="obix-pages.") as folder:
        units = [it for it in sorted((top / "examples").iterdir()) if it.suffix in (".service", ".timer", ".socket")]
        for unit in units:
            text = unit.read_text(encoding="utf-8").replace("/usr/local/bin/obix", program).replace("/usr/local/lib/obix/", f"{top}/tools/")
            (Path(folder) / unit.name).write_text(text, encoding="utf-8")
        for unit in units:
            look_by(told, f"examples/{unit.name}: systemd-analyze verify", ["systemd-analyze", "verify", f"{folder}/{unit.name}"])


def main():
    top, program = Path(sys.argv[1]), sys.argv[2]
    told = Told()
    for page in PAGES:
        run_page(told, top, program, page)
    look_at_links(told, top)
    look_at_form(told, top)
    look_at_files(told, top, program)
    look_at_counts(told, top)
    return 1 if told.failed else 0


if __name__ == "__main__":
    sys.exit(main())
