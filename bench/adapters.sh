#!/usr/bin/env bash
# Tries what `obix` says and with which status it ends where the system refuses it something: a full disk, a folder as a file,
# a file that isn't there, a port that is taken, nobody who listens, a peer that goes away. Prints a line for each, and ends
# with 1 where one isn't as it must be.
# usage: bench/adapters.sh [--program FILE] [--port P]      (out/bin/obix, and ports P and P + 1: free ones if not given)
set -eu
top=$(cd "$(dirname "$0")/.." && pwd)
obix= port=
while [ $# -gt 1 ]; do
  case $1 in
    --program) obix=$2 ;;
    --port) port=$2 ;;
    *) echo "usage: bench/adapters.sh [--program FILE] [--port P]" >&2; exit 1 ;;
  esac
  shift 2
done
if [ -z "$obix" ]; then
  "$top/obix" --prove   # builds it where needed
  obix=$top/out/bin/obix
fi
site=$top/examples/point.xml
: "${port:=$(python3 -c 'import socket; s = socket.socket(); s.bind(("127.0.0.1", 0)); print(s.getsockname()[1])')}"
work=$(mktemp -d "${TMPDIR:-/tmp}/obix-adapters.XXXXXX")
server= failed=0
trap '[ -z "$server" ] || kill "$server" 2>/dev/null || true; rm -rf "$work"' EXIT
printf 'GET /obix/n HTTP/1.1\r\n\r\n' >"$work/request"

# row NAME STATUS WORDS FROM TO COMMAND..: the command, which reads FROM and writes to TO, ends with this status and says these words.
row() {
  local name=$1 status=$2 words=$3 from=$4 to=$5 ended=0
  shift 5
  timeout 60 "$obix" "$@" <"$from" >"$to" 2>"$work/said" || ended=$?
  if [ "$ended" = "$status" ] && [ "$(cat "$work/said")" = "$words" ]; then
    echo "ok      $name: $ended, $words"
  else
    echo "not ok  $name: $ended, $(cat "$work/said"); must be $status, $words"
    failed=1
  fi
}

# A peer at port P + 1 that does this with the one connection that it gets.
peer() {
  : >"$work/peer"
  python3 - "$((port + 1))" "$1" >"$work/peer" <<'P' &
import socket, struct, sys
listener = socket.socket()
listener.setsockopt(socket.SOL_SOCKET, socket.SO_REUSEADDR, 1)
listener.bind(("127.0.0.1", int(sys.argv[1])))
listener.listen()
print("listening", flush=True)
link, _ = listener.accept()
link.recv(4096)
if sys.argv[2] == "reset":
    link.setsockopt(socket.SOL_SOCKET, socket.SO_LINGER, struct.pack("ii", 1, 0))
link.close()
P
  server=$!
  until [ -s "$work/peer" ]; do sleep 0.1; done
}

row "a full disk, check" 4 "obix: write fault" /dev/null /dev/full check "$site"
row "a full disk, stdio" 4 "obix: write fault" "$work/request" /dev/full stdio "$site"
row "a full disk, record" 4 "obix: write fault" "$work/request" /dev/full record "$site"
row "a full disk, storm" 4 "obix: write fault" /dev/null /dev/full storm 1 1 1
row "a full disk, serve" 4 "obix: write fault" /dev/null /dev/full serve "$site" 127.0.0.1 "$port"
row "no such file" 3 "obix: read fault: $work/none: no such file" /dev/null "$work/out" check "$work/none"
row "a folder as a document" 3 "obix: read fault: $work: is a folder" /dev/null "$work/out" check "$work"
row "a folder as a site" 3 "obix: read fault: $work: is a folder" /dev/null "$work/out" stdio "$work"
row "a folder as a record" 3 "obix: read fault: $work: is a folder" /dev/null "$work/out" audit "$site" "$work"
row "a folder as the input" 3 "obix: read fault" "$work" "$work/out" stdio "$site"
row "an address that isn't ours" 9 "obix: port fault: not this machine's" /dev/null "$work/out" serve "$site" 192.0.2.1 "$port"
row "a host without an address" 9 "obix: port fault" /dev/null "$work/out" serve "$site" no.such.host.invalid "$port"
row "nobody listens" 7 "obix: link fault" /dev/null "$work/out" watch "http://127.0.0.1:$port/obix/" n
"$obix" serve "$site" 127.0.0.1 "$port" >"$work/listening" & server=$!
until [ -s "$work/listening" ]; do sleep 0.1; done
row "a port that is taken" 9 "obix: port fault: in use" /dev/null "$work/out" serve "$site" 127.0.0.1 "$port"
kill "$server"
peer close
row "a peer that closes" 8 "obix: peer: ended" /dev/null "$work/out" watch "http://127.0.0.1:$((port + 1))/obix/" n
wait "$server" || true
peer reset
row "a peer that resets" 7 "obix: link fault" /dev/null "$work/out" watch "http://127.0.0.1:$((port + 1))/obix/" n
server=
exit "$failed"
