#!/usr/bin/env bash
# Effective objects: of lists of 1,000 and 10,000 items that are each of a contract of 500 parts, of one such item, and of
# an object at the end of a chain of 16 contracts; and a walk by View over one item of a list of 10 and of 10,000. Each is
# done four times, and the best counts. An effective object is dropped before the next one is built, so those of the lists lie
# each time in memory that the system gives anew; what the first took is printed beside the best. Takes about 3 GB of memory.
# usage: bench/effective.sh
set -euo pipefail
cd "$(dirname "$0")/.."
work=$(mktemp -d)
trap 'rm -rf "$work"' EXIT
bench/build.sh "$work"
"$work/ob_bench" effective >"$work/times"
awk '$3 ~ /^[0-9]+$/ {
    parts[$1] = $2; time[$1] = $3
    printf "%-10s %8d parts %12.3f ms %7.3f us a part", $1, $2, $3 / 1e6, $3 / 1e3 / $2
    if (NF > 3) { first[$1] = $4; printf "   (first %7.3f)", $4 / 1e3 / $2 }
    printf "\n"
  }
  END {
    a = parts["list1000"]; b = parts["list10000"]
    printf "list ten times as long: %.2f times the time a part (first %.2f)\n", (time["list10000"] / b) / (time["list1000"] / a), (first["list10000"] / b) / (first["list1000"] / a)
    printf "view in a list a thousand times as long: %.2f times the time\n", time["view10000"] / time["view10"]
  }' "$work/times"
