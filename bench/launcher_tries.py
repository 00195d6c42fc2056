"""The tries of bench/launcher.sh: the launcher ./obix on a checkout and with a kit that are made up for it."""
import os
import pathlib
import shlex
import shutil
import signal
import subprocess
import sys
import tempfile
import time

import launcher_gates
import launcher_kit
from launcher_place import COMPILES, UNPROVED, Place, judge, on_terminal, started_here, skip, tried, until


def try_first(place):
    status, out, err = place.run("which")
    lines = err.splitlines()
    judge("a fresh checkout: compiled unproved, and run", status == 0, out == "unproved of one\n", len(lines) == 3, COMPILES in lines[0],
          UNPROVED in lines[2])
    judge("the next start runs it at once, with one line", place.is_run("unproved of one", False), len(place.calls("try")) == 1)
    judge("nothing is proved, no hint is asked for, nothing is left", not place.calls("ci"), not place.calls("rattle"), place.is_clean())


def try_streams(place):
    opened = [place.run("open")[1].split("total 0\n")[-1].splitlines() for _ in range(2)]
    judge("no file of the launcher's reaches the program, nor in the run that builds",
          all(len(it) == 4 and "/proc/" in it[3] for it in opened))
    for number in (0, 2, 5, 13, 70, 255):
        judge(f"status {number} is the program's", place.run("status", number)[0] == number)
    judge("a signal ends the program as such", place.run("signal")[0] == -signal.SIGTERM)
    words = ["two  blanks", "it's", 'a "quote"', "", "*", "$HOME", "\\", "a\nb", "-n", "--prove"]
    judge("words with blanks and quotes", place.run("words", *words)[1] == "".join(f"[{it}]" for it in words) + "\n")
    judge("--prove with more words, or after one, is the program's", place.run("--prove", "x")[0] == 1, place.run("x", "--prove")[0] == 1)
    status, out, err = place.run()
    judge("status 1 and its line are the program's", status == 1, out == "", err.splitlines()[1:] == ["obix: usage"])
    judge("another folder", place.run("folder", cwd=place.home)[1] == f"{place.home}\n")
    os.symlink(place.top / "obix", place.base / "bin" / "run it")
    run = subprocess.run([place.base / "bin" / "run it", "which"], env=place.environment, capture_output=True, text=True)
    judge("called by a link", run.stdout == "unproved of one\n")
    names = {it.partition("=")[0] for it in place.run("environment")[1].splitlines()}
    judge("no word of the launcher's reaches the program's environment", names <= {*place.environment, "PWD", "OLDPWD", "SHLVL", "_"})


def try_input(place):
    judge("the input of the run that builds reaches the program", place.run("input", given="a\nb\n")[1] == "a\nb\n")
    judge("and of the next", place.run("input", given="a\nb\n")[1] == "a\nb\n")
    run = subprocess.run(f"exec {shlex.quote(str(place.top / 'obix'))} which 2>&- <&-", shell=True, env=place.environment,
                         stdout=subprocess.PIPE, text=True)
    judge("without input and standard error", run.stdout == "unproved of one\n", run.returncode == 0)


def try_terminal(place):
    place.say("slow", 1)
    status, shown = on_terminal(place, ["line"], b"typed early\n", lambda: place.calls("try"))
    judge("what is typed while it builds reaches the program", status == 0, "read typed early" in shown)
    place.forget("slow")
    judge("and what is typed later", "read typed" in on_terminal(place, ["line"], b"typed\n", lambda: True)[1])


def try_cut_off(place):
    judge("TERM to a launcher that builds", place.cut_off(lambda it: it.terminate()) == -signal.SIGTERM, place.is_clean())
    judge("HUP to it", place.cut_off(lambda it: it.send_signal(signal.SIGHUP)) == -signal.SIGHUP, place.is_clean())
    judge("kill -9 of it", place.cut_off(lambda it: it.kill()) == -signal.SIGKILL, place.is_clean())
    place.say("slow", 60)
    before = len(place.calls("try"))
    status = on_terminal(place, ["which"], b"\x03", lambda: len(place.calls("try")) > before)[0]
    place.forget("slow")
    judge("^C on a terminal", status == -signal.SIGINT, place.is_clean())
    judge("the next start builds", place.is_run("unproved of one", True))
    left = place.rooms / "obix-build.left"
    (left / "kit").mkdir(parents=True)
    os.utime(left, (time.time() - 300,) * 2)
    place.change("crates/obix/src/main.rt", "two")
    judge("what a build left that was killed as a whole goes with the next", place.is_run("unproved of two"), not left.exists())


def try_two(place):
    place.say("slow", 3)
    both = [place.start("which") for _ in range(2)]
    said = [it.communicate(timeout=30) for it in both]
    judge("two at once: one builds, the other waits and says so", all(out == "unproved of one\n" for out, _ in said),
          len(place.calls("try")) == 1, sum("waiting" in err for _, err in said) == 1)
    place.change("crates/obix/src/main.rt", "two")
    place.say("slow", 60)
    first = place.start("which")
    until(lambda: len(place.calls("try")) == 2)
    second = place.start("which")
    time.sleep(0.3)
    place.say("slow", 0)
    first.kill()
    first.communicate()
    judge("the first of two is killed: the second builds", second.communicate(timeout=30)[0] == "unproved of two\n",
          len(place.calls("try")) == 3, place.is_clean())


def try_changes(place):
    place.run("which")
    for number, (what, name) in enumerate((("a file", "crates/ob_low/src/lib.rt"), ("crates.txt", "crates.txt"), ("HANDLES", "HANDLES"))):
        place.change(name)
        judge(f"{what} changed: built again", place.is_run("unproved of one", True), len(place.calls("try")) == number + 2)
    (place.top / "crates/ob_low/src/more.rt").unlink()
    judge("a file removed: built again", place.is_run("unproved of one", True))
    place.change("crates/ob_low/src/added.rt", "new")
    judge("a file added: built again", place.is_run("unproved of one", True))
    (place.kit / "KIT-ID").write_text("another")
    time.sleep(0.01)
    judge("the kit changed: built again", place.is_run("unproved of one", True))
    for name in ("ob_low/specs/Lib.antt", "ob_low/proofs/Lib.antt", "obix/README.md", "obix/data/site.xml", "obix/must-fail/wrong.edit",
                 "ob_other/src/lib.rt"):
        place.change(f"crates/{name}")
    (place.top / "crates/obix/out").mkdir()
    judge("proofs, READMEs, data, wrong bodies, another crate changed: stays", place.is_run("unproved of one", False))
    place.say("slow", 3)
    place.change("crates/obix/src/main.rt", "two")
    started = place.start("which")
    until(lambda: list(place.rooms.glob("obix-build.*/*/start.bc")))
    place.change("crates/obix/src/main.rt", "three")
    place.forget("slow")
    judge("a file changed while it was compiled: the next start builds again", started.communicate()[0] == "unproved of two\n",
          place.is_run("unproved of three", True))


def try_proved(place):
    status, out, err = place.run("--proved")
    judge("--proved where nothing is: 70, one line, nothing is built", status == 70, out == "", len(err.splitlines()) == 1,
          not place.calls("try"), not place.calls("ci"))
    status, out, err = place.run("--prove")
    said = err.splitlines()
    judge("--prove proves, runs nothing, says where", status == 0, out == "", said[-1].endswith(f"{place.top}/out/bin/obix"),
          not place.calls("try"))
    judge("the proved program runs, in silence", place.is_run("proved of one"), place.run("which")[2] == "")
    judge("--prove again proves nothing", place.run("--prove")[0] == 0, len(place.calls("ci")) == 1)
    judge("--proved says where it is", place.run("--proved") == (0, f"{place.top}/out/bin/obix\n", ""))
    jobs = int(place.calls("ci")[0].split()[1] if place.calls("ci")[0].split()[1:] else 0)
    judge("it proves with as many processors as there are, or as memory allows", 0 <= jobs <= len(os.sched_getaffinity(0)))
    place.change("crates/ob_low/proofs/Lib.antt")
    judge("a proof changed: the proved program is dropped", place.is_run("unproved of one", True))
    judge("and --proved says that there is none", place.run("--proved")[:2] == (70, ""))
    place.environment["RT_JOBS"] = "7"
    place.run("--prove")
    judge("RT_JOBS is taken where it is set", place.calls("ci")[-1] == "ci 7", place.is_run("proved of one"))
    del place.environment["RT_JOBS"]
    (place.base / "bin" / "rt").unlink()
    judge("it runs without rt", place.is_run("proved of one"))


def try_failures(place):
    place.say("no-try")
    status, out, err = place.run("which")
    judge("compiling fails: proves, says so, runs what it proved", status == 0, out == "proved of one\n", "that failed" in err,
          "proving" in err, place.is_clean())
    place.change("crates/obix/src/main.rt", "two")
    place.say("no-ci")
    status, out, err = place.run("which")
    judge("both fail: 70, with the ends of both logs", status == 70, out == "", "nothing is compiled" in err, "nothing is proved" in err,
          place.is_clean())
    (place.kit / "bin/rattle-link").write_text("#!/bin/sh\nexit 1\n")
    place.forget("no-try")
    judge("linking fails: the same", place.run("which")[0] == 70, place.is_clean())


def try_no_rt(place):
    (place.base / "bin" / "rt").unlink()
    status, out, err = place.run("which")
    judge("without rt: 70, and one line that says what is missing", status == 70, out == "", len(err.splitlines()) == 1,
          "Rattle kit" in err)
    judge("--prove without rt: the same", place.run("--prove")[0] == 70)
    launcher_kit.write(place.base / "bin" / "rt", f'#!/bin/sh\nexec "{place.kit}/bin/rt" "$@"\n', 0o755)
    judge("rt is a script that calls the kit's", place.is_run("unproved of one", True))


def try_no_rights(place):
    judge("a user without rights in the checkout builds in the cache", place.run("which", other=True)[:2] == (0, "unproved of one\n"),
          not (place.top / "out").exists(), list(place.home.glob(".cache/obix/*/quick/obix")))
    judge("and runs that from then on", len(place.run("which", other=True)[2].splitlines()) == 1, len(place.calls("try")) == 1)
    judge("--prove there, too", place.run("--prove", other=True)[0] == 0, place.run("which", other=True) == (0, "proved of one\n", ""))
    subprocess.run(["chmod", "-R", "a-w", place.top], check=True)
    (place.kit / "KIT-ID").write_text("another")
    judge("in a checkout that is read-only, nothing is left of a proof", place.run("--prove", other=True)[0] == 0,
          len(place.calls("ci")) == 2, place.is_clean())
    subprocess.run(["chmod", "-R", "u+w", place.top], check=True)
    place.run("which")
    shutil.rmtree(place.home / ".cache")
    status, out, err = place.run("which", other=True)
    judge("built by the owner, run by another: nothing is built", (status, out) == (0, "unproved of one\n"), len(err.splitlines()) == 1,
          len(place.calls("try")) == 2)
    place.run("--prove", other=True)
    judge("what that user proved goes before what the owner compiled", place.run("which", other=True) == (0, "proved of one\n", ""))
    shutil.rmtree(place.home / ".cache")
    shutil.rmtree(place.top / "out")
    for where, cache in (("a whole path", place.home / "kept"), ("no whole path", "kept")):
        place.environment["XDG_CACHE_HOME"] = str(cache)
        place.run("which", other=True)
        judge(f"XDG_CACHE_HOME is {where}", (place.home / ("kept" if where == "a whole path" else ".cache") / "obix").is_dir())
    del place.environment["XDG_CACHE_HOME"]
    shutil.rmtree(place.home / ".cache")
    del place.environment["HOME"]
    status, out, err = place.run("which", other=True)
    judge("neither rights nor HOME: 70, and a line", status == 70, out == "", len(err.splitlines()) == 1, "can be written" in err)


def main():
    tries = {"first": try_first, "streams": try_streams, "input": try_input, "terminal": try_terminal, "cut off": try_cut_off,
             "two": try_two, "changes": try_changes, "proved": try_proved, "failures": try_failures, "no rt": try_no_rt,
             "no rights": try_no_rights, **launcher_gates.TRIES}
    base = pathlib.Path(tempfile.mkdtemp(prefix="obix launcher's "))
    base.chmod(0o755)
    try:
        for name, call in tries.items():
            if len(sys.argv) > 2 and sys.argv[2] not in name:
                continue
            if call in (try_no_rights, launcher_gates.try_gate_and_others) and os.geteuid():
                skip(name, "it wants root, to run the launcher as another user")
                continue
            call(Place(base, name))
    finally:
        for it in started_here():
            os.kill(it, signal.SIGKILL)
        shutil.rmtree(base)
    print(", ".join(f"{number} {said}" for said, number in tried.items()))
    return 1 if tried["not ok"] or not tried["ok"] else 0


if __name__ == "__main__":
    sys.exit(main())
