#!/usr/bin/env bash
# Tries a package of dev/package.sh in a Debian of its own with a real systemd, without a network: lintian, install, completion,
# start, write, upgrade while a client writes, remove, install again, purge. Prints `ok` and what was tried, a line each; the first
# that fails prints `not ok` and why, and ends it. The Debian is fetched by debootstrap the first time, and kept (some 350 MB) in ROOT.
# With --unproved the tries make a package of PROGRAM for themselves: its version and its description say that nothing of it is
# proved, and at the end it is gone.
# usage: bench/package.sh [PACKAGE | --unproved PROGRAM] [ROOT]    (default: what dev/package.sh makes, ~/.cache/obix/debian); needs
# root, systemd-nspawn, debootstrap, lintian (77 without)
set -eu
top=$(cd "$(dirname "$0")/.." && pwd)
[ "$(id -u)" = 0 ] || { echo "package: only root may start a container" >&2; exit 77; }
for command in systemd-nspawn debootstrap lintian; do
  command -v "$command" >/dev/null || { echo "package: $command is missing: apt-get install systemd-container debootstrap lintian" >&2; exit 77; }
done
room=$(mktemp -d "${TMPDIR:-/tmp}/obix-package.XXXXXX")
trap 'rm -rf "$room"' EXIT

# The package that dev/package.sh of the checkout $1 makes.
make() {
  local said
  said=$("$1/dev/package.sh" "$room")
  package=${said%%$'\n'*}
}

# A copy of the checkout in the folder $2, whose launcher calls the program $1 proved.
copy_unproved() {
  local copy=$2
  mkdir "$copy"
  cp -r "$top"/{dev,docs,completions,examples,tools} "$top"/*.md "$copy/"
  printf '#!/bin/sh\n# for the tries of a package alone\necho "%s"\n' "$(readlink -f "$1")" >"$copy/obix"
  chmod 755 "$copy/obix"
  sed -i 's/^Version: .*/&~unproved/; s/^Description: .*/Description: server for tries of the package, not proved/; /^ \.$/,$d' \
    "$copy/dev/package/control"
}

case ${1:-} in
  --unproved) copy_unproved "${2:?the program is missing: --unproved PROGRAM}" "$room/checkout"; make "$room/checkout"; shift 2 ;;
  '') make "$top" ;;
  *) package=$1; shift ;;
esac
root=${1:-${XDG_CACHE_HOME:-$HOME/.cache}/obix/debian}
if [ ! -e "$root/var/lib/dpkg/status" ]; then
  . /etc/os-release   # the Debian that this machine has, whose systemd its kernel and control groups suit
  mkdir -p "${root%/*}"
  rm -rf "$root.new"
  debootstrap --variant=minbase --include=systemd,systemd-sysv,dbus,adduser,bash-completion,procps,curl,python3 \
    "$VERSION_CODENAME" "$root.new" >"$room/debootstrap" || { tail -n 5 "$room/debootstrap" >&2; exit 1; }
  mv "$root.new" "$root"
fi
python3 "$top/bench/package_tries.py" "$(readlink -f "$package")" "$(readlink -f "$root")"
