#!/usr/bin/env bash
# GETs and PUTs of `obix serve` over loopback with 1, 4, 16 and 64 kept links, each with a worker of its own, beside nginx
# with a worker process for each link up to 4, which answers the same bytes by `return 200`: how many a second, and
# microseconds of processor a request (user and system, of the server). The load comes from peers/load.c.
# nginx is the one of this machine. Where there is none, the package in apt's own cache (/var/cache/apt/archives) is unpacked
# into a temporary folder, and nothing is installed or fetched; where that is missing too, obix is measured alone.
# usage: bench/peer.sh [--requests N] [--runs N]      (100,000 requests in all at each number of links; 3 runs, in turns)
set -euo pipefail
top=$(cd "$(dirname "$0")/.." && pwd)
requests=100000 runs=3
while [ $# -gt 0 ]; do
  case $1 in
    --requests) requests=$2; shift 2 ;;
    --runs) runs=$2; shift 2 ;;
    *) sed -n '/^# usage/p' "$0" >&2; exit 1 ;;
  esac
done
work=$(mktemp -d)
servers=()
trap 'kill "${servers[@]}" 2>/dev/null; wait; rm -rf "$work"' EXIT

gcc -O2 -pthread -o "$work/load" "$top/bench/peers/load.c"
"$top/obix" --prove   # builds it where needed
obix=${OBIX:-$top/out/bin/obix}
echo '<obj href="http://h/obix/" is="obix:Lobby"><int href="n" val="7" min="0" max="10" writable="true"/></obj>' >"$work/site.xml"
answer='<int href="/obix/n" val="7" max="10" min="0" writable="true"/>'

nginx=$(command -v nginx || true)
package=$(ls /var/cache/apt/archives/nginx_*.deb 2>/dev/null | tail -1)
if [ -z "$nginx" ] && [ -n "$package" ]; then
  dpkg-deb -x "$package" "$work/nginx"
  nginx=$work/nginx/usr/sbin/nginx
fi
[ -n "$nginx" ] && "$nginx" -v 2>&1 || echo "no nginx on this machine: obix alone"
echo "processors $(nproc), load before $(cut -d' ' -f1-3 /proc/loadavg)"

free_port() {
  python3 -c 'import socket; s = socket.socket(); s.bind(("127.0.0.1", 0)); print(s.getsockname()[1])'
}

# Waits until a server listens.
await() {
  for _ in $(seq 100); do
    (exec 3<>"/dev/tcp/127.0.0.1/$1") 2>/dev/null && return
    sleep 0.1
  done
  echo "no server at $1" >&2
  exit 1
}

# nginx with so many workers, at a port.
start_nginx() {
  local room=$work/nginx-$1
  mkdir -p "$room/logs"
  {
    echo "worker_processes $1; daemon off; pid $room/pid; error_log $room/errors;"
    echo "events { worker_connections 256; }"
    echo "http { access_log off; keepalive_requests 1000000000;"
    for kind in client_body proxy fastcgi uwsgi scgi; do echo "${kind}_temp_path $room/$kind;"; done
    echo "server { listen 127.0.0.1:$2 reuseport; location / { default_type text/xml; return 200 '$answer'; } } }"
  } >"$room/conf"
  "$nginx" -p "$room" -c "$room/conf" 2>/dev/null &
  servers+=($!)
  await "$2"
}

# obix with so many workers, at a port; a link more is for the one that finds that it listens.
start_obix() {
  "$obix" serve "$work/site.xml" 127.0.0.1 "$2" --workers "$1" --quota $((2 * runs + 2)) >/dev/null &
  servers+=($!)
  await "$2"
}

# Ticks of processor that a process and its children took.
ticks() {
  local pid all=0
  for pid in "$1" $(pgrep -P "$1"); do
    all=$((all + $(sed 's/.*) //' "/proc/$pid/stat" | awk '{ print $12 + $13 }')))
  done
  echo "$all"
}

# One run of the load against a server: its name, the verb, requests a second, microseconds of processor a request.
run() {
  local name=$1 pid=$2 before rate
  shift 2
  before=$(ticks "$pid")
  rate=$("$work/load" "$@")
  awk -v line="$name $4 $rate" -v ticks=$(($(ticks "$pid") - before)) -v all=$(($2 * $3)) -v second="$(getconf CLK_TCK)" \
    'BEGIN { print line, ticks * 1e6 / second / all }'
}

for links in 1 4 16 64; do
  each=$((requests / links))
  there=$(free_port)
  start_obix "$links" "$there"
  server=${servers[0]}
  if [ -n "$nginx" ]; then
    beside=$(free_port)
    start_nginx $((links < 4 ? links : 4)) "$beside"
    peer=${servers[1]}
  fi
  for _ in $(seq "$runs"); do
    [ -n "$nginx" ] && run nginx "$peer" "$beside" "$links" "$each" GET /obix/n >>"$work/rates-$links"
    run obix "$server" "$there" "$links" "$each" GET /obix/n >>"$work/rates-$links"
    run obix "$server" "$there" "$links" "$each" PUT /obix/n '<int val="7"/>' >>"$work/rates-$links"
  done
  kill "${servers[@]}" 2>/dev/null
  wait "${servers[@]}" 2>/dev/null || true
  servers=()
  awk -v links="$links" '{ name = $1 " " $2; if (!(name in best)) order[++count] = name
      if ($3 > best[name]) best[name] = $3
      if (!(name in least) || $4 < least[name]) least[name] = $4 }
    END { for (i = 1; i <= count; i++) printf "%2d links  %-9s  %7d a second  %5.1f us of processor a request\n", links, order[i], best[order[i]], least[order[i]] }' "$work/rates-$links"
done
echo "load after $(cut -d' ' -f1-3 /proc/loadavg)"
