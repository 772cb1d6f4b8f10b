#!/bin/sh
# A backup, and what brings it back: the files of a database are copied while no command is at work, lost, and put back.
#
# usage: restore.sh
#
# It works in a new folder below the current one.
set -eu

root=$(cd "$(dirname "$0")/.." && pwd)
"$root/nda" --version >/dev/null
work=$(mktemp -d "$PWD/restore.XXXXXX")
mkdir "$work/now" "$work/backup"
cd "$work/now"

"$root/nda" new 7
"$root/nda" run <"$root/examples/board.txt" >/dev/null
cp nda.[0-9] ../backup

# The database is lost: a command says 7. With the backup in its place all is there again, and goes on.
rm nda.[0-9]
"$root/nda" query sensors.board 1700013600 1700013660 20 average 2>/dev/null || echo "ended with $?"
cp ../backup/nda.[0-9] .
"$root/nda" query sensors.board 1700013600 1700013660 20 average
printf '%s\n' "BEGIN sensors.board" "SET cpu = 498" "SET disk = 312" "END" "MOMENT 1700013660" | "$root/nda" run
rm -r "$work"
