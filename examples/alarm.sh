#!/bin/sh
# An alarm that a disk fills up: its configuration, two beats, the events, and the log.
#
# usage: alarm.sh
#
# It works in a new folder below the current one.
set -eu

root=$(cd "$(dirname "$0")/.." && pwd)
"$root/nda" --version >/dev/null
work=$(mktemp -d "$PWD/alarm.XXXXXX")
cd "$work"

cat >full.conf <<'END'
alarm: disk_full
on: disk_space.root
calc: $used * 100 / ($avail + $used)
every: 1m
warn: $this > 90
END

cat >disk.txt <<'TEXT'
CHART disk_space.root '' 'Space of the root disk' GiB disk disk.space
DIMENSION avail
DIMENSION used
BEGIN disk_space.root
SET avail = 20
SET used = 80
END
MOMENT 1700000040
BEGIN disk_space.root
SET avail = 8
SET used = 92
END
MOMENT 1700000100
TEXT

"$root/nda" new 7
"$root/nda" health <full.conf
"$root/nda" run <disk.txt
"$root/nda" log text
rm -r "$work"
