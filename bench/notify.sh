#!/usr/bin/env bash
# Tries tools/notify.py: a command, a webhook that refuses one in twenty while server and tool are killed, mail by a real mail server
# (an Exim on loopback with STARTTLS and password, which knows no other server), a record that is put back, a full disk, a second
# tool on the same file, the statuses. Each event is compared with the alarms of the server. Some three minutes; names of tries on
# the line choose some. Status 77: `mail` was left out, since exim4-daemon-light or openssl isn't installed, or this isn't root, as
# an Exim has to be. It listens on 127.0.0.1 alone.
# usage: bench/notify.sh [--obix PROGRAM] [--from PORT] [TRY ..]      (out/bin/obix; command, back, full, line, webhook, mail)
set -eu
top=$(cd "$(dirname "$0")/.." && pwd)
export PATH=$PATH:/usr/sbin
case " $* " in *" --obix "* | *" --help "* | *" -h "*) ;; *) "$top/obix" --prove ;; esac   # builds it where needed
exec python3 "$top/bench/notify_tries.py" "$@"
