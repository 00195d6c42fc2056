#!/usr/bin/env python3
"""Looks whether all that tells of the command line agrees with its table, and with the version.

    dev/words_check.py [--write]

The table is crates/ob_command/src/form.rt (what each command asks for), the version crates/ob_command/src/version.rt. Compared with
them are the help pages of the program (crates/ob_command/src/pages.rt), the manual (docs/obix.1), docs/PROFILE.md, CHANGELOG.md, the
plate of ob_command and the row of `--version`; the kit, where `rt` is there; and completions/obix.bash, which `--write` writes and
which is tried in a bash. Says what differs. Status 0: nothing. 1: something.
"""
import re
import shutil
import subprocess
import sys
import tempfile
from pathlib import Path

TOP = Path(__file__).resolve().parent.parent
COMMAND = TOP / "crates/ob_command"
COMPLETION = TOP / "completions/obix.bash"
FILES = {"SITE", "RECORD", "NEW", "FILE", "CONFIG"}  # the operands that are names of files
MOST_LINES, MOST_COLUMNS = 24, 80
OTHERS = ["help", "--help", "--version"]


def text(path):
    return (TOP / path).read_text(encoding="utf-8")


class Form:
    """A command of the table: its name, its usage, the names of its operands and of its options."""

    def __init__(self, block):
        self.name = re.search(r'name: "(.*?)"', block)[1]
        self.usage = re.search(r'usage: "(.*?)"', block)[1]
        operands, options = re.search(r"operands: &\[(.*?)\],\s*options: &\[(.*?)\],?\s*\}", block, re.S).groups()
        self.operands = re.findall(r'"(.*?)"', operands)
        self.options = [name if quoted else SHARED[name] for quoted, name in
                        ((a, a or b) for a, b in re.findall(r'"(--.*?)"|\b([A-Z]{2,})\b', options))]


SOURCE = text("crates/ob_command/src/form.rt")
SHARED = dict(re.findall(r'const ([A-Z]+): Asked = Asked::\w+\("(.*?)"', SOURCE))
FORMS = [Form(block) for block in re.findall(r"const [A-Z]+: Form = Form (\{.*?\n\});", SOURCE, re.S)]
VERSION = re.search(r'VERSION: &str = "obix (\S+) \((.*?)\)\\n";', text("crates/ob_command/src/version.rt"))


def synopsis():
    """The usages as the manual's synopsis has them: `serve SITE [--workers N]` of its macros."""
    part = re.search(r"^\.Sh SYNOPSIS\n(.*?)^\.Sh ", text("docs/obix.1"), re.S | re.M)[1]
    for block in part.split(".Nm\n")[1:]:
        words = []
        for line in block.splitlines():
            macro, _, rest = line.partition(" ")
            if macro == ".Op":
                words.append("[" + re.sub(r"Fl -(\S+)", r"--\1", rest).replace("Ar ", "").upper().replace("--", "\0") + "]")
            else:
                words += ["-" + rest] if macro == ".Fl" else [rest] if macro == ".Cm" else rest.upper().split()
        yield re.sub(r" \.\.\.", "..", " ".join(words)).replace("\0", "--")


def pages():
    """The help pages by the names of their constants."""
    source = text("crates/ob_command/src/pages.rt")
    return {name: page.replace('\\"', '"') for name, page in re.findall(r'const ([A-Z]+): &str = "\\\n(.*?)";\n', source, re.S)}


def differences():
    """What doesn't agree, a line each."""
    number, kit = VERSION.groups()
    usages = [form.usage for form in FORMS]
    told = [re.sub(r"--[A-Z]+", lambda it: it[0].lower(), it) for it in synopsis()]
    for usage in usages + ["help [COMMAND]", "--version"]:
        if usage.lower() not in [it.lower() for it in told]:
            yield f"docs/obix.1: the synopsis lacks {usage}"
        if f"`{usage}`" not in text("crates/ob_command/README.md"):
            yield f"crates/ob_command/README.md lacks `{usage}`"
        if f"`obix {usage}`" not in text("docs/PROFILE.md"):
            yield f"docs/PROFILE.md lacks `obix {usage}`"
    for it in told:
        if it.lower() not in [usage.lower() for usage in usages] + ["help [command]", "--version"]:
            yield f"docs/obix.1: the synopsis has {it}, the table hasn't"
    for name, page in pages().items():
        lines = page.splitlines()
        if len(lines) > MOST_LINES or max(map(len, lines)) > MOST_COLUMNS:
            yield f"pages.rt: {name} has {len(lines)} lines, the longest of {max(map(len, lines))} columns"
        form = next((form for form in FORMS if form.name.upper() == name), None)
        if form and (lines[0] != f"obix {form.usage}" or any(it not in page for it in form.operands + form.options)):
            yield f"pages.rt: {name} isn't that of {form.usage}"
    for form in FORMS:
        if not re.search(rf"^  {form.name} ", pages()["ALL"], re.M) or any(it not in pages()["ALL"] for it in form.options):
            yield f"pages.rt: ALL lacks {form.usage}"
    if not re.search(rf"^## {re.escape(number)}\b", text("CHANGELOG.md"), re.M):
        yield f"CHANGELOG.md has no section {number}"
    if f".Os obix {number}\n" not in text("docs/obix.1"):
        yield f"docs/obix.1: its line .Os isn't obix {number}"
    if f"=> 0 / obix {number} ({kit})␊" not in text("crates/ob_vectors_runs/data/stdio.rows"):
        yield "ob_vectors_runs: the row of --version differs"
    if shutil.which("rt"):
        here = subprocess.run(["rt", "version"], capture_output=True, text=True).stdout.strip()
        if here != kit:
            yield f"version.rt names the kit {kit}, this one is {here}"
    if not COMPLETION.is_file() or COMPLETION.read_text(encoding="utf-8") != completion():
        yield "completions/obix.bash isn't that of the table: dev/words_check.py --write"
    else:
        yield from tries()


def completion():
    """The completion for bash: commands, options and files, of the table."""
    rows = []
    for form in FORMS:
        kinds = " ".join("file" if name in FILES else "word" for name in form.operands)
        options = " ".join(form.options)
        rows.append(f"    {form.name}) options='{options}' operands='{kinds}' ;;")
    names = " ".join(form.name for form in FORMS)
    return COMPLETION_TEXT.replace("@NAMES@", names).replace("@OTHERS@", " ".join(OTHERS)).replace("@ROWS@", "\n".join(rows))


COMPLETION_TEXT = r"""# Completion of obix for bash: commands, options and files.
# Written by `dev/words_check.py --write` from crates/ob_command/src/form.rt: change it there.

_obix() {
  local word=${COMP_WORDS[COMP_CWORD]} names='@NAMES@' options= operands= kind= before= at=0 plain= i
  COMPREPLY=()
  if [ "$COMP_CWORD" -eq 1 ]; then
    mapfile -t COMPREPLY < <(compgen -W "$names @OTHERS@" -- "$word")
    return
  fi
  case ${COMP_WORDS[1]} in
    help | --help)
      [ "$COMP_CWORD" -gt 2 ] || mapfile -t COMPREPLY < <(compgen -W "$names" -- "$word")
      return ;;
@ROWS@
    *) return ;;
  esac
  # The words between the command and this one: options that were given are not offered again, and operands are counted.
  for ((i = 2; i < COMP_CWORD; i++)); do
    before=${COMP_WORDS[i]}
    if [ -n "$plain" ]; then at=$((at + 1))
    elif [ "$before" = -- ]; then plain=1
    elif [ "$before" = = ]; then i=$((i + 1))
    elif [[ " $options " == *" $before "* ]]; then
      options=" $options " options=${options/" $before "/ }
      if [ "${COMP_WORDS[i + 1]}" = = ]; then i=$((i + 1)); fi
      i=$((i + 1))
      if [ "$i" -ge "$COMP_CWORD" ]; then return; fi   # the word is the option's value
    elif [[ $before != -* ]]; then at=$((at + 1))
    fi
  done
  if [ -z "$plain" ] && [[ $word == -* ]]; then
    mapfile -t COMPREPLY < <(compgen -W "$options --help" -- "$word")
    return
  fi
  for kind in $operands; do
    if [ "$at" -eq 0 ]; then break; fi
    at=$((at - 1)) kind=
  done
  if [ "$kind" = file ]; then
    compopt -o filenames 2>/dev/null   # so that blanks are escaped and folders end with a slash
    mapfile -t COMPREPLY < <(compgen -f -- "$word")
  fi
}
complete -F _obix obix
"""

# What is typed after `obix`, the last word unfinished, and what is offered.
TRIES = (
    ("se", "serve"),
    ("s", "serve stdio schedule super storm"),
    ("--", "--help --version"),
    ("help ke", "keep"),
    ("help keep ", ""),
    ("serve --", "--workers --quota --help"),
    ("serve --workers 4 --", "--quota --help"),
    ("serve --workers = 4 --", "--quota --help"),
    ("serve --workers ", ""),
    ("serve pl", "plant.xml"),
    ("serve --workers 4 pl", "plant.xml"),
    ("serve -- pl", "plant.xml"),
    ("serve plant.xml pl", ""),
    ("keep plant.xml pl", "plant.xml"),
    ("keep plant.xml plant.record 127.0.0.1 pl", ""),
    ("compact plant.xml plant.record pl", "plant.xml"),
    ("console http://h/ /a --u", "--user"),
    ("watch http://h/ pl", ""),
    ("super pl", "plant.xml"),
    ("super plant.xml --", "--rounds --wait --help"),
    ("storm ", ""),
    ("check two", "two words.xml"),
    ("other ", ""),
)


def tries():
    """What a bash offers otherwise than it should."""
    bash = shutil.which("bash")
    script = 'source "$1"; shift; COMP_WORDS=(obix "$@"); COMP_CWORD=$#; _obix; printf "%s\\n" "${COMPREPLY[@]}"'
    with tempfile.TemporaryDirectory() as folder:
        for name in ("plant.xml", "two words.xml"):
            (Path(folder) / name).touch()
        for typed, offered in TRIES:
            done = subprocess.run([bash, "-c", script, "bash", str(COMPLETION), *typed.split(" ")], cwd=folder, capture_output=True, text=True)
            came = done.stdout.split("\n")[:-1] if done.stdout != "\n" else []
            if sorted(" ".join(came).split()) != sorted(offered.split()) or done.stderr:
                yield f"completions/obix.bash: obix {typed}: {came} {done.stderr}"


def main():
    if sys.argv[1:] == ["--write"]:
        COMPLETION.parent.mkdir(exist_ok=True)
        COMPLETION.write_text(completion(), encoding="utf-8")
    elif sys.argv[1:]:
        print(__doc__, file=sys.stderr)
        return 1
    found = list(differences())
    print("\n".join(found), end="\n" if found else "")
    return 1 if found else 0


if __name__ == "__main__":
    sys.exit(main())
