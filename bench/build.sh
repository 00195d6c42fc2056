#!/usr/bin/env bash
# Builds the measuring program, bench/ob_bench, into FOLDER/ob_bench, for the scripts beside this one. No check of the
# repository reads its sources, whose names end in .txt: here a temporary copy of the crates that it stands on, with what
# earlier checks kept in out/, gets them under their own names. The copy is proved and built, and goes away.
# usage: bench/build.sh FOLDER
set -euo pipefail
top=$(cd "$(dirname "$0")/.." && pwd)
copy=$(mktemp -d)
trap 'rm -rf "$copy"' EXIT
python3 - "$top" "$copy" <<'PY'
import pathlib
import shutil
import sys

top, copy = map(pathlib.Path, sys.argv[1:])
needs = {"ob_bench": "ob_alarms ob_contracts ob_encoding ob_history ob_http ob_object ob_turn ob_values ob_times ob_xml".split()}
for line in (top / "crates.txt").read_text().splitlines():
    name, colon, libraries = line.partition("#")[0].partition(":")
    if colon:
        needs[name.split()[0]] = libraries.split()
wanted, found = ["ob_bench"], []
while wanted:
    name = wanted.pop()
    if name in needs and name not in found:
        found.append(name)
        wanted += needs[name]
(copy / "crates.txt").write_text("".join(f"{name}: {' '.join(needs[name])}\n" for name in sorted(found)))
shutil.copy(top / "HANDLES", copy)
for name in found:
    if name != "ob_bench":
        shutil.copytree(top / "crates" / name, copy / "crates" / name)
for file in (top / "bench/ob_bench").rglob("*.txt"):
    to = copy / "crates/ob_bench" / file.relative_to(top / "bench/ob_bench").with_suffix("")
    to.parent.mkdir(parents=True, exist_ok=True)
    shutil.copy(file, to)
PY
(cd "$copy/crates/ob_bench" && rt run -- none) >"$copy/log" 2>&1 || { tail -20 "$copy/log"; exit 1; }
cp "$(ls -t "$copy"/crates/ob_bench/out/ob_bench "$copy"/crates/ob_bench/out/*/ob_bench 2>/dev/null | head -1)" "$1/ob_bench"
