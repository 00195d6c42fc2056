#!/usr/bin/env bash
# Tries tools/mqtt.py with a real mosquitto: values, writes and refusals, alarms as events; kills of broker, server and tool while a
# reader looks 20 times a second for an old value under `online`; a server that hangs; TLS, password and certificates; what a first
# run left at the broker; the statuses; how many points a second. Some five minutes; names of tries on the line choose some of them.
# Status 77: mosquitto, python3-paho-mqtt or openssl isn't installed, so nothing was tried. It listens on 127.0.0.1 alone.
# usage: bench/mqtt.sh [--obix PROGRAM] [--from PORT] [TRY ..]      (out/bin/obix; values, away, hang, kills, together, secure, left, line, speed)
set -eu
top=$(cd "$(dirname "$0")/.." && pwd)
export PATH=$PATH:/usr/sbin
for it in mosquitto openssl; do
  command -v $it >/dev/null || { echo "mqtt.sh: no $it here (apt-get install $it): nothing was tried" >&2; exit 77; }
done
for python in python3 /usr/bin/python3 ''; do [ -n "$python" ] && "$python" -c 'import paho.mqtt.client' 2>/dev/null && break; done
[ -n "$python" ] || { echo "mqtt.sh: no paho here (apt-get install python3-paho-mqtt): nothing was tried" >&2; exit 77; }
case " $* " in *" --obix "* | *" --help "* | *" -h "*) ;; *) "$top/obix" --prove ;; esac   # builds it where needed
exec "$python" "$top/bench/mqtt_tries.py" "$@"
