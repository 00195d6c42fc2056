#!/usr/bin/env bash
# Makes the Debian package obix_VERSION_ARCHITECTURE.deb of the proved program: program, manual page, completion, units, tools,
# pages. Where no program of the files as they are is proved it packs nothing, and ends with status 70. The same files and the same
# program make the same package, byte for byte.
# usage: dev/package.sh [FOLDER]      (default: out); needs dpkg-dev and binutils; prints the file and its checksum
set -eu
export LC_ALL=C
top=$(cd "$(dirname "$0")/.." && pwd)
case ${1:-} in
  --help | -h) sed -n '2,5s/^# //p' "$0"; exit ;;
esac
[ $# -le 1 ] || { echo "package: usage: dev/package.sh [FOLDER]" >&2; exit 1; }
for command in dpkg-deb readelf; do
  command -v "$command" >/dev/null || { echo "package: $command is missing: apt-get install dpkg-dev binutils" >&2; exit 77; }
done
out=${1:-$top/out}
program=$("$top/obix" --proved)

said=$("$program" --version)   # obix VERSION (KIT)
version=${said#obix } version=${version%% *}
architecture=$(dpkg --print-architecture)
# the youngest version of the C library of which the program takes a symbol
libc=$(readelf -V "$program" | grep -o 'GLIBC_[0-9.]*' | sort -uV | tail -n 1)
# The times in the package: of the last commit, or where there is no git, of the program.
time=$(git -C "$top" log -1 --format=%ct 2>/dev/null || stat -c %Y "$program")
export SOURCE_DATE_EPOCH="${SOURCE_DATE_EPOCH:-$time}"

room=$(mktemp -d "${TMPDIR:-/tmp}/obix-package.XXXXXX")
trap 'rm -rf "$room"' EXIT
root=$room/root doc=usr/share/doc/obix
umask 022

put() { install -D -m "$1" "$2" "$root/$3"; }   # put MODE FILE PLACE
zip() { mkdir -p "$root/${2%/*}" && gzip -9nc "$1" >"$root/$2.gz" && chmod 644 "$root/$2.gz"; }   # zip FILE PLACE
files() { (cd "$top/$1" && find . -type f ! -name '.*' ! -path '*/__pycache__/*' -printf '%P\n'); }   # files FOLDER

# A unit of examples/ as the package has it: its places, its user, and the site, the host and the port of /etc/default/obix.
unit() {
  sed -e 's#/usr/local/bin/obix#/usr/bin/obix#g; s#/usr/local/lib/obix#/usr/share/obix#g; s#/etc/systemd/system/#/usr/lib/systemd/system/#g' \
    -e 's#http://127\.0\.0\.1:8080/#http://${HOST}:${PORT}/#g' \
    -e 's#/etc/obix/plant-room\.xml#${SITE}#g; s# 127\.0\.0\.1 8080 --workers 64 --quota 1000000# ${HOST} ${PORT} $OPTIONS#' \
    -e 's#\(docs/[A-Z]*\.md\|tools/README\.md\)#/'"$doc"'/\1#g' \
    -e '/^\[Service\]$/a EnvironmentFile=/etc/default/obix' "$1" |
    awk -v unit="${1##*/}" -f "$top/dev/package/units.awk" >"$room/unit"
  put 644 "$room/unit" "usr/lib/systemd/system/${1##*/}"
}

put 755 "$program" usr/bin/obix
zip "$top/docs/obix.1" usr/share/man/man1/obix.1
put 644 "$top/completions/obix.bash" usr/share/bash-completion/completions/obix
put 644 "$top/examples/heating-plant.xml" etc/obix/site.xml
put 644 "$top/dev/package/default" etc/default/obix
for file in $(files tools); do
  [ "$file" = README.md ] || put 644 "$top/tools/$file" "usr/share/obix/$file"
done
for file in $(files examples); do
  case $file in
    *.service | *.socket | *.timer) unit "$top/examples/$file" ;;
    *) put 644 "$top/examples/$file" "$doc/examples/$file" ;;
  esac
done
# The pages stand to each other as in the repository, so that their links lead on.
for page in README.md CHANGELOG.md SECURITY.md tools/README.md docs/{RUNNING,SITE,PROFILE,PROOF}.md docs/dashboard.png; do
  put 644 "$top/$page" "$doc/$page"
done
put 644 "$top/dev/package/copyright" "$doc/copyright"
put 644 "$top/dev/package/overrides" usr/share/lintian/overrides/obix

# The log of a Debian package: one entry, which names the page that has the changes.
cat >"$room/changelog" <<END
obix ($version) stable; urgency=medium

  * CHANGELOG.md has what changed.

 -- Jiknalf maintainers <maintainers@users.noreply.jiknalf.example>  $(date -uR -d "@$SOURCE_DATE_EPOCH")
END
zip "$room/changelog" "$doc/changelog"

control=$root/DEBIAN
mkdir -p "$control"
sed -e "s/@VERSION@/$version/; s/@ARCHITECTURE@/$architecture/; s/@LIBC@/${libc#GLIBC_}/" \
  -e "s/@SIZE@/$(du -sk --apparent-size --exclude=DEBIAN "$root" | cut -f 1)/" "$top/dev/package/control" >"$control/control"
for script in config postinst prerm postrm; do install -m 755 "$top/dev/package/$script" "$control/$script"; done
install -m 644 "$top/dev/package/templates" "$control/templates"
printf '/etc/default/obix\n/etc/obix/site.xml\n' >"$control/conffiles"
(cd "$root" && find usr -type f | sort | xargs md5sum) >"$control/md5sums"

mkdir -p "$out"
file=$out/obix_${version}_$architecture.deb
dpkg-deb --root-owner-group -Zxz --build "$root" "$file" >/dev/null
echo "$file"
(cd "$out" && sha256sum "${file##*/}")
