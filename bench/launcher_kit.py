"""A kit and a checkout that are made up for the tries of the launcher: small, quick, and with a program that says who built it."""
import shutil

# The program. Its text stands for what was compiled; a megabyte of comment makes it as large as the module of a program.
PROGRAM = r"""#!/usr/bin/env bash
case ${1-} in
  '') echo 'obix: usage' >&2; exit 1 ;;
  which) echo "KIND of TEXT" ;;
  words) shift; printf '[%s]' "$@"; echo ;;
  input) cat ;;
  line) read -r it && echo "read $it" ;;
  folder) pwd ;;
  status) exit "$2" ;;
  signal) kill -TERM $$ ;;
  open) exec ls -l /proc/self/fd ;;
  environment) exec env ;;
  *) echo 'obix: usage' >&2; exit 1 ;;
esac
exit
"""

RT = r"""#!/usr/bin/env bash
# rt: doc, try and ci, as far as ./obix needs them. The files slow, no-try and no-ci in the kit make it slow, or fail.
set -u
self=$(readlink -f "$0")
kit=${self%/bin/rt}
echo "$1 ${RT_JOBS-}" >>"$kit/calls"

pause() {
  [ -f "$kit/slow" ] || return 0
  setsid sleep "$(cat "$kit/slow")" &
  trap 'kill -9 $!; exit 143' TERM HUP INT
  wait $!
  trap - TERM HUP INT
}

# The program of the kind $1, of the text $2.
program() { sed "s/KIND/$1/; s/TEXT/$2/" "$kit/program"; }

try() {
  local text
  text=$(cat src/main.rt)
  cat >/dev/null   # the real one reads its input too
  cd "$(mktemp -d)" && program unproved "$text" >program.bc && echo small >start.bc || exit
  pause
  [ ! -f "$kit/no-try" ] || { echo "made up: nothing is compiled"; exit 2; }
  "$kit/bin/rattle" check --start 'no function'
  for it in start program; do
    env -i "$kit/toolchain/bin/clang" -O0 -fsanitize=address -c "$it.bc" -o "$it.o" || exit
  done
}

gate() {
  local name text above=$PWD
  while [ "$above" != / ] && [ ! -e "$above/.git" ]; do above=$(dirname "$above"); done
  [ "$above" = / ] || [ "$above" = "$PWD" ] || { echo "crates.txt stands below the top"; exit 2; }
  rm -rf crates/*/out
  for name in crates/ob_*; do mkdir "$name/out" || exit; done
  pause
  mkdir crates/obix/out && text=$(cat crates/obix/src/main.rt) || exit
  [ ! -f "$kit/no-ci" ] || { echo "made up: nothing is proved"; echo "0 passed, 1 failed"; exit 1; }
  program proved "$text" >crates/obix/out/obix && chmod +x crates/obix/out/obix && sleep 0.02
  cat "$kit/ran" >crates/obix/out/stdout
  cmp -s crates/obix/out/stdout crates/obix/stdout || { echo "1 passed, 1 failed"; exit 1; }
  echo "2 passed, 0 failed"
}

case $1 in
  doc) echo "$kit/START-HERE.md" ;;
  try) try ;;
  ci) gate ;;
  *) exit 2 ;;
esac
"""

RATTLE = r"""#!/usr/bin/env bash
echo "rattle $*" >>"$(dirname "$(readlink -f "$0")")/../calls"
"""

# It is called without an environment, and compiles a program only by the words that the launcher is to give.
CLANG = r"""#!/usr/bin/env bash
[[ " $* " != *" program.bc "* || " $* " == *" -Os "* && " $* " != *fsanitize* ]] || { echo "clang: wrong words: $*"; exit 1; }
while [ $# -gt 0 ]; do
  case $1 in *.bc) from=$1 ;; -o) to=$2 ;; esac
  shift
done
cp "$from" "$to"
"""

LINK = r"""#!/usr/bin/env bash
while [ $# -gt 0 ]; do
  case $1 in -o) to=$2 from=$3 ;; *.a) [ -f "$1" ] || exit 1 ;; esac
  shift
done
cp "$from" "$to" && chmod +x "$to"
"""


def write(file, text, mode=0o644):
    file.parent.mkdir(parents=True, exist_ok=True)
    file.write_text(text)
    file.chmod(mode)


def make_kit(kit):
    write(kit / "KIT-ID", "a kit that is made up\n")
    write(kit / "START-HERE.md", "")
    write(kit / "program", PROGRAM + ("#" * 99 + "\n") * 11_000)
    write(kit / "ran", "as it must be\n")
    write(kit / "calls", "", 0o666)
    for name, text in (("bin/rt", RT), ("bin/rattle", RATTLE), ("bin/rattle-link", LINK), ("toolchain/bin/clang", CLANG)):
        write(kit / name, text, 0o755)
    for name in ("bin/rtlib.py", "toolchain/lib/crt.o", "c/libos_c.a", "c/liblibc_c.a"):
        write(kit / name, "")


def make_checkout(top, launcher):
    write(top / "crates.txt", "# made up\nob_low:\nob_other:   # no part of the program\nobix: ob_low\n")
    write(top / "HANDLES", "Handles allowed: none.\n")
    told = {"obix/src/main.rt": "one", "obix/args": "input\n", "obix/stdin": "as it must be\n", "obix/stdout": "as it must be\n"}
    for name in ("obix/README.md", "obix/data/site.xml", "obix/must-fail/wrong.edit", "ob_low/src/lib.rt", "ob_low/src/more.rt",
                 "ob_low/specs/Lib.antt", "ob_low/proofs/Lib.antt", "ob_other/src/lib.rt", *told):
        write(top / "crates" / name, told.get(name, ""))
    shutil.copy(launcher, top / "obix")


# The compiler and prover below the real rt: it finds each crate proved, and a program is its text.
PROVER = r"""#!/usr/bin/env bash
said='logic=proved functions=1 native=nat,char,string logic-built=trusted libraries-built=trusted statements=trusted'
[[ " $* " != *" --help "* && $1 != fmt ]] || exit 0
to=
for word; do [ "$last" != -o ] || to=$word; last=$word; done 2>/dev/null
case $to in
  *.rlib) mkdir -p "$to" && echo made up >"$to/format" && echo "$said" ;;
  *.o) sed "s/KIND/proved/; s/TEXT/$(cat src/main.rt)/" "$(dirname "$0")/../program" >"$to" ;;
  *) echo made up >"$to" && echo "$said" ;;
esac
"""


def make_kit_of(kit, real):
    """The same with the rt of a real kit."""
    make_kit(kit)
    for name in ("bin/rt", "bin/rtlib.py"):
        shutil.copy(real / name, kit / name)
    write(kit / "bin/rattle", PROVER, 0o755)
    write(kit / "toolchain/bin/clang", "#!/bin/sh\n", 0o755)
    for name in ("WHAT", "rattle/std/specs/Prelude.antt", "rattle/logic/none", "rattle/antt/none", "rlibs/none/format", "rlibs/none/toolchain",
                 "logic_built/none"):
        write(kit / name, "")
