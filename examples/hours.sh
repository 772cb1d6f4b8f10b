#!/bin/sh
# Questions: a day by hours, a minute by tens of seconds, and how often a value was anomalous.
#
# usage: hours.sh
#
# It works in a new folder below the current one.
set -eu

root=$(cd "$(dirname "$0")/.." && pwd)
"$root/nda" --version >/dev/null
work=$(mktemp -d "$PWD/hours.XXXXXX")
cd "$work"

"$root/nda" new 7
"$root/nda" run <"$root/examples/board.txt"
"$root/nda" query sensors.board 1700006400 1700092800 3600 average | head -n 5
"$root/nda" query sensors.board 1700013600 1700013660 20 average
"$root/nda" query sensors.board 1700006400 1700092800 86400 anomaly-rate cpu
rm -r "$work"
