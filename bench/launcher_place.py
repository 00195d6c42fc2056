"""A place for the tries of bench/launcher.sh: a checkout and a kit that are made up, with runs of the launcher in it."""
import fcntl
import os
import pathlib
import pty
import subprocess
import sys
import termios
import time

import launcher_kit

MARK = f"LAUNCHER_TRIES={os.getpid()}"
COMPILES, UNPROVED = "compiling the program unproved", "this program is not proved"
tried = {"ok": 0, "not ok": 0, "skipped": 0}


def judge(what, *holds):
    said = "ok" if all(holds) else "not ok"
    tried[said] += 1
    print(said, what, "" if all(holds) else f"({[bool(it) for it in holds]})", flush=True)


def skip(what, why):
    tried["skipped"] += 1
    print("skipped", what, f"({why})", flush=True)


def until(holds, seconds=20):
    end = time.monotonic() + seconds
    while not holds() and time.monotonic() < end:
        time.sleep(0.02)
    return holds()


def started_here():
    """The processes that these tries started and that still run: by their environment."""
    found = []
    for it in pathlib.Path("/proc").glob("[0-9]*"):
        try:
            if MARK.encode() in (it / "environ").read_bytes().split(b"\0") and int(it.name) != os.getpid():
                found.append(int(it.name))
        except OSError:
            pass
    return found


class Place:
    """A folder with a kit, a checkout, and folders for temporary files and of a user; their names have blanks and an apostrophe."""

    def __init__(self, base, name):
        self.base = base / name
        self.top, self.kit, self.rooms, self.home = (self.base / it for it in ("a check out", "the kit", "tmp dir", "ho me"))
        launcher_kit.make_kit(self.kit)
        launcher_kit.make_checkout(self.top, sys.argv[1])
        for it in (self.rooms, self.home, self.base / "bin"):
            it.mkdir()
            it.chmod(0o777)
        os.symlink(self.kit / "bin" / "rt", self.base / "bin" / "rt")
        self.environment = {"PATH": f"{self.base}/bin:/usr/bin:/bin", "HOME": str(self.home), "TMPDIR": str(self.rooms),
                            "LAUNCHER_TRIES": MARK.partition("=")[2], "LANG": "C.UTF-8"}

    def words(self, *words, other=False):
        start = ["setpriv", "--reuid=65534", "--regid=65534", "--clear-groups"] if other else []
        return [*start, str(self.top / "obix"), *map(str, words)]

    def start(self, *words, other=False, **how):
        how = {"stdin": subprocess.DEVNULL, "stdout": subprocess.PIPE, "stderr": subprocess.PIPE, "text": True, "cwd": "/", **how}
        return subprocess.Popen(self.words(*words, other=other), env=self.environment, **how)

    def run(self, *words, given=None, **how):
        started = self.start(*words, **{"stdin": subprocess.DEVNULL if given is None else subprocess.PIPE, **how})
        out, err = started.communicate(given, timeout=60)
        return started.returncode, out, err

    def is_run(self, what, builds=None):
        """Whether `obix which` says so: without a proof with a line that says it, with one in silence."""
        status, out, err = self.run("which")
        lines = 0 if what.startswith("proved") else 1 if builds is False else 3
        return (status, out) == (0, what + "\n") and (builds is None or len(err.splitlines()) == lines)

    def calls(self, word=""):
        return [it for it in (self.kit / "calls").read_text().splitlines() if it.startswith(word)]

    def say(self, name, text=""):
        """Has the kit be slow, or fail."""
        (self.kit / name).write_text(str(text))

    def forget(self, name):
        (self.kit / name).unlink()

    def change(self, name, text=None):
        file = self.top / name
        file.write_text(file.read_text() + " " if text is None else text)
        time.sleep(0.01)

    def is_clean(self, seconds=5):
        """Whether no process and no folder of a build is left."""
        return until(lambda: not list(self.rooms.iterdir()) and not started_here(), seconds)

    def cut_off(self, end):
        """Begins a build, ends it by `end` once it is under way, and gives the launcher's status."""
        self.say("slow", 60)
        before = len(self.calls("try"))
        started = self.start("which")
        until(lambda: len(self.calls("try")) > before)
        time.sleep(0.1)
        end(started)
        started.communicate(timeout=20)
        self.forget("slow")
        return started.returncode


def on_terminal(place, words, given, at):
    """Runs the launcher on a terminal of its own, types `given` once `at()` holds, and gives the status and what was shown."""
    ours, theirs = pty.openpty()
    started = subprocess.Popen(place.words(*words), env=place.environment, cwd="/", stdin=theirs, stdout=theirs, stderr=theirs,
                               start_new_session=True, preexec_fn=lambda: fcntl.ioctl(0, termios.TIOCSCTTY, 0))
    os.close(theirs)
    until(at)
    time.sleep(0.1)
    os.write(ours, given)
    status, shown = started.wait(20), b""
    try:
        while True:
            more = os.read(ours, 4096)
            if not more:
                break
            shown += more
    except OSError:
        pass
    os.close(ours)
    return status, shown.decode(errors="replace")
