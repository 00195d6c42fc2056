#!/usr/bin/env bash
# Tries `obix watch` and `obix console` against `obix serve` over loopback, while curl writes: what they print are the objects that
# curl reads. Then polls a second, and what `watch` holds of a watch of 2,048 items, one of them a feed of many events.
# usage: bench/clients.sh [--polls N] [--events N]      (5,000 and 100,000; 0 events leaves that out)
set -eu
polls=5000 events=100000
while [ $# -gt 1 ]; do
  case $1 in
    --polls) polls=$2 ;;
    --events) events=$2 ;;
    *) echo "usage: bench/clients.sh [--polls N] [--events N]" >&2; exit 1 ;;
  esac
  shift 2
done
top=$(cd "$(dirname "$0")/.." && pwd)
"$top/obix" --prove   # builds it where needed
obix=$top/out/bin/obix
work=$(mktemp -d "${TMPDIR:-/tmp}/obix-clients.XXXXXX")
server=
trap '[ -z "$server" ] || kill "$server" 2>/dev/null || true; rm -rf "$work"' EXIT

serve() {  # serve SITE: at a port of its own, until it is killed
  port=$(python3 -c 'import socket; s = socket.socket(); s.bind(("127.0.0.1", 0)); print(s.getsockname()[1])')
  root=http://127.0.0.1:$port
  "$obix" serve "$1" 127.0.0.1 "$port" --workers 4 --quota 1000 >"$work/server" &
  server=$!
  until grep -q listening "$work/server"; do sleep 0.1; done
}
read_by_curl() { curl -sS --max-time 20 "$root$1"; }
write() { curl -sS --max-time 20 -X PUT --data-binary "$2" -H 'Content-Type: text/xml' -o /dev/null "$root$1"; }
same() {  # same NAME FILE FILE
  if cmp -s "$2" "$3"; then echo "$1: as it must be"; else echo "$1: otherwise"; diff "$2" "$3" || true; exit 1; fi
}

serve "$top/examples/plant-room.xml"
"$obix" watch "$root/obix/" /obix/boiler/flow /obix/pump1 --polls 0 >"$work/watched"
{ echo '# add'; read_by_curl /obix/boiler/flow; echo; read_by_curl /obix/pump1; echo; } >"$work/wanted"
same 'a watch after add' "$work/watched" "$work/wanted"

# While curl writes: the last lines are what curl reads, and the values that were printed came in the order of the writes.
( for speed in $(seq 1 40); do write /obix/pump1/speed "<int val=\"$speed\"/>"; done; touch "$work/written" ) &
writer=$!
until [ -e "$work/written" ]; do
  "$obix" watch "$root/obix/" /obix/pump1/speed --polls 200 >>"$work/seen"
done
wait "$writer"
"$obix" watch "$root/obix/" /obix/pump1/speed --polls 1 | tail -n 1 >"$work/watched"
{ read_by_curl /obix/pump1/speed; echo; } >"$work/wanted"
same 'a watch while curl writes, at the end' "$work/watched" "$work/wanted"
sed -n 's/.* val="\([0-9]*\)".*/\1/p' "$work/seen" | uniq | grep -vx 64 >"$work/values" || true
sort -n "$work/values" | uniq >"$work/wanted"
same "$(wc -l <"$work/values") values that were printed meanwhile, each once and in order" "$work/values" "$work/wanted"

# A feed's events are those that the writes made.
"$obix" watch "$root/obix/" /obix/setpoints/feed --polls 0 >"$work/before"
for value in 61 62 63; do write /obix/boiler/setpoint "<real val=\"$value\"/>"; done
"$obix" watch "$root/obix/" /obix/setpoints/feed --polls 0 >"$work/after"
echo "$(($(grep -o '<obj>' "$work/after" | wc -l) - $(grep -o '<obj>' "$work/before" | wc -l)))" >"$work/events"
echo 3 >"$work/three"
same 'three writes, three events' "$work/events" "$work/three"

write /obix/boiler/flow '<real val="82"/>'
"$obix" console "$root/obix/" /obix/alarms --polls 1 --ack /obix/alarm/1/ --user ann >"$work/board"
grep '/obix/boiler/flow$' "$work/board" | cut -c1-12 | sed 's/ *$//' >"$work/states"
printf 'unackedAlarm\nalarm\n' >"$work/wanted"
same 'an alarm, and its acknowledgement' "$work/states" "$work/wanted"
read_by_curl /obix/alarm/1/ | grep -q 'name="ackUser" val="ann"' && echo 'the server has the user: as it must be'
python3 "$top/examples/dashboard.py" "$root/obix/" /obix/pump1/speed /obix/setpoints/feed --polls 1 --pause 0 >"$work/table"
grep -q '/obix/setpoints/feed .* events' "$work/table" && echo 'the dashboard counts the events: as it must be'

# Polls a second, of one watch with nothing changed.
began=$(date +%s.%N)
"$obix" watch "$root/obix/" /obix/pump1/speed --polls "$polls" >/dev/null
awk -v n="$polls" -v a="$began" -v b="$(date +%s.%N)" 'BEGIN { printf "%d polls, %.0f a second\n", n, n / (b - a) }'
kill "$server"; server=
[ "$events" -gt 0 ] || exit 0

# A mirror of 2,048 items: 2,047 points, and a feed with so many events. The watch may have lapsed when it is deleted.
python3 - "$events" >"$work/large.xml" <<'END'
import datetime, sys
print('<obj href="http://plant/obix/" is="obix:Lobby">')
for number in range(2047):
    print(f'<int name="p{number}" href="p{number}" val="{number}"/>')
print('<int name="t" href="t" val="1"/>\n<obj name="h" href="h" is="obix:History"><ref name="source" href="t"/><list name="data" of="obix:HistoryRecord">')
first = datetime.datetime(2026, 1, 1)
for number in range(int(sys.argv[1])):
    time = first + datetime.timedelta(seconds=number)
    print(f'<obj><abstime name="timestamp" val="{time.isoformat()}Z"/><int name="value" val="{number}"/></obj>')
print('</list></obj>\n</obj>')
END
serve "$work/large.xml"
python3 - "$events" "$obix" "$root/obix/" "$work/watched" <<'END'
import os, sys, time
events, obix, url, out = sys.argv[1:]
words = [obix, 'watch', url, *(f'/obix/p{number}' for number in range(2047)), '/obix/h/feed', '--polls', '0']
began = time.monotonic()
child = os.posix_spawn(obix, words, os.environ, file_actions=[(os.POSIX_SPAWN_OPEN, 1, out, os.O_WRONLY | os.O_CREAT, 0o600)])
_, status, used = os.wait4(child, 0)
lines = sum(1 for _ in open(out))
print(f'2,048 items and {int(events):,} events: {lines} lines, {used.ru_maxrss / 1024:.0f} MB at most, {used.ru_utime:.2f} s of the client,'
      f' {time.monotonic() - began:.1f} s in all, status {os.waitstatus_to_exitcode(status)}')
END
