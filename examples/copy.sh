#!/bin/sh
# A copy of a database: a child in one folder and its parent in another, over 127.0.0.1.
#
# usage: copy.sh [PORT]     (19999 if left out)
#
# It works in a new folder below the current one. The child stores a text and sends it; the parent receives it, and prints
# a STORED line for each part that is on its disk. More beats of the child come with the next run of both. In the end
# both answer one question alike.
set -eu

root=$(cd "$(dirname "$0")/.." && pwd)
address=127.0.0.1:${1:-19999}
"$root/nda" --version >/dev/null
work=$(mktemp -d "$PWD/copy.XXXXXX")
mkdir "$work/child" "$work/parent"

child() { (cd "$work/child" && exec "$root/nda" "$@"); }
parent() { (cd "$work/parent" && exec "$root/nda" "$@"); }

# However this script ends, nobody goes on listening.
receiver=
trap '[ -z "$receiver" ] || kill "$receiver" 2>/dev/null || :' EXIT
trap 'exit 1' HUP INT TERM

# The parent listens until one child came. A child that is too early ends with 6, and tries again.
copy() {
    (cd "$work/parent" && exec "$root/nda" receive "$address") &
    receiver=$!
    tries=0
    until child send "$address"; do
        tries=$((tries + 1))
        [ "$tries" -lt 50 ] || exit 1
        sleep 0.1
    done
    wait "$receiver"
    receiver=
}

child new 7
parent new 8
child run <"$root/examples/board.txt" >"$work/stored"
copy

printf '%s\n' "BEGIN sensors.board" "SET cpu = 498" "SET disk = 312" "END" "MOMENT 1700013660" | child run
copy

for end in child parent; do
    "$end" query sensors.board 1700006400 1700013700 600 max >"$work/$end/answer"
done
cat "$work/parent/answer"
cmp "$work/child/answer" "$work/parent/answer"
rm -r "$work"
