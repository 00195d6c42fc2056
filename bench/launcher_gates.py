"""What a whole `rt ci` leaves, and what the launcher makes of it: by an rt that is made up, and by the real one over a compiler that is."""
import pathlib
import shutil
import subprocess
import time

import launcher_kit
from launcher_place import judge, skip, until


def gate(place, wait=True):
    """Runs `rt ci` in the checkout, and gives its status."""
    run = subprocess.Popen(["rt", "ci"], cwd=place.top, env=place.environment, stdin=subprocess.DEVNULL, stdout=subprocess.PIPE,
                           stderr=subprocess.STDOUT, text=True)
    if not wait:
        return run
    said = run.communicate(timeout=120)[0]
    return run.returncode, said


def try_gate(place):
    judge("a gate that has ended", gate(place)[0] == 0, place.is_run("proved of one"), place.run("which")[2] == "")
    judge("--proved says where it is", place.run("--proved") == (0, f"{place.top}/out/bin/obix\n", ""))
    judge("--prove proves nothing a second time", place.run("--prove")[0] == 0, len(place.calls("ci")) == 1)
    place.change("crates/ob_low/proofs/Lib.antt")
    judge("a proof changed after it: the program is dropped", place.is_run("unproved of one", True))
    place.say("slow", 4)
    running = gate(place, wait=False)
    until(lambda: len(place.calls("ci")) == 2)
    judge("while a gate runs, what there was runs", place.is_run("unproved of one", False))
    running.communicate()
    judge("once it has ended, what it proved", place.is_run("proved of one"), (place.top / "out/bin/obix").is_file())
    place.say("slow", 60)
    running = gate(place, wait=False)
    until(lambda: not (place.top / "crates/obix/out/obix").exists())
    judge("while the next one runs, what the last one proved", place.is_run("proved of one"))
    running.terminate()
    running.communicate()
    place.forget("slow")
    judge("and after that one was ended", place.is_run("proved of one"), place.run("which")[2] == "")


def try_gate_changes(place):
    place.run("which")
    place.say("slow", 3)
    running = gate(place, wait=False)
    until((place.top / "crates/ob_other/out").is_dir)
    time.sleep(0.1)
    place.change("crates/ob_low/specs/Lib.antt")
    running.communicate()
    place.forget("slow")
    judge("a file changed while the gate ran: its program is not taken", place.is_run("unproved of one", False))
    place.change("crates.txt")
    judge("nor after one more change", place.is_run("unproved of one", True))
    place.say("ran", "something else\n")
    judge("the gate failed, since its program wrote something else: not taken", gate(place)[0] == 1, place.is_run("unproved of one", False))
    place.say("ran", "as it must be\n")
    gate(place)
    (place.kit / "KIT-ID").write_text("another")
    time.sleep(0.01)
    judge("the kit changed after the gate: not taken", place.is_run("unproved of one"))
    gate(place)
    both = [place.start("which") for _ in range(2)]
    judge("two at once after a gate: both run what it proved", all(it.communicate() == ("proved of one\n", "") for it in both))
    shutil.rmtree(place.top / "out/bin")
    (place.top / "crates/obix/out/obix").touch()
    judge("a program that was built there after the gate: not taken", place.is_run("unproved of one"))


def try_gate_and_others(place):
    gate(place)
    judge("another user, without rights in the checkout, runs what the gate proved",
          place.run("which", other=True) == (0, "proved of one\n", ""))
    judge("--prove by that user proves nothing a second time", place.run("--prove", other=True)[0] == 0, len(place.calls("ci")) == 1)
    home = place.environment.pop("HOME")
    judge("and one without HOME runs it", place.run("which", other=True) == (0, "proved of one\n", ""))
    place.environment["HOME"] = home
    (place.rooms / ".git").mkdir()
    place.change("crates/obix/src/main.rt", "two")
    judge("the folder for temporary files is in a repository: --prove proves", place.run("--prove")[0] == 0, place.is_run("proved of two"))
    (place.rooms / ".git").rmdir()
    place.environment["TMPDIR"] = "tmp dir"
    place.change("crates/obix/src/main.rt", "three")
    judge("TMPDIR is no whole path", place.run("which", cwd=place.base)[1] == "unproved of three\n", place.is_clean())


def real_kit():
    """The folder of the kit whose rt is on the PATH."""
    if shutil.which("rt") is None:
        return None
    page = subprocess.run(["rt", "doc"], stdin=subprocess.DEVNULL, capture_output=True, text=True).stdout.strip()
    kit = pathlib.Path(page).parent
    return kit if page and (kit / "bin" / "rtlib.py").is_file() else None


def try_real_gate(place):
    """What the real rt leaves, where it proves, where all is kept, and however the checkout came to be."""
    real = real_kit()
    if real is None:
        skip("the gate of the real rt", "there is no rt on the PATH")
        return
    shutil.rmtree(place.kit)
    launcher_kit.make_kit_of(place.kit, real)
    git, away = place.top / ".git", place.base / "git's"
    kinds = (("git made", git.mkdir), ("that has no .git", lambda: shutil.rmtree(git)),
             ("that is a worktree", lambda: (away.mkdir(), git.write_text(f"gitdir: {away}\n"))))
    for number, (kind, make) in enumerate(kinds):
        make()
        place.change("crates/obix/src/main.rt", f"text{number}")
        for how in ("proved", "kept"):
            status, said = gate(place)
            is_kept = "obix is kept" in said
            shutil.rmtree(place.top / "out", ignore_errors=True)
            runs = place.run("which") == (0, f"proved of text{number}\n", "")
            judge(f"the real rt, a checkout {kind}: what was {how} runs, and is taken over", status == 0, is_kept == (how == "kept"), runs,
                  (place.top / "out/bin/obix").is_file(), place.run("--prove")[0] == 0)
    place.change("crates/ob_low/src/lib.rt")
    judge("the real rt, --prove", place.run("--prove")[0] == 0, place.run("which") == (0, "proved of text2\n", ""), place.is_clean())


TRIES = {"gate": try_gate, "gate, changes": try_gate_changes, "gate, others": try_gate_and_others, "gate, real": try_real_gate}
