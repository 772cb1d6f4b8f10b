#!/bin/sh
# A first collector: a program of a few lines, run by `nda collect`, and a question to what it stored.
#
# usage: collect.sh
#
# It works in a new folder below the current one.
set -eu

root=$(cd "$(dirname "$0")/.." && pwd)
"$root/nda" --version >/dev/null
work=$(mktemp -d "$PWD/collect.XXXXXX")
cd "$work"

# EVERY is its first word. It defines its chart once, and then prints a block each EVERY seconds, three times.
cat >temperature <<'END'
#!/bin/sh
echo "CHART board.temperature '' 'Temperature of the board' Celsius board board.temperature line 100 $1"
echo "DIMENSION cpu '' absolute 1 10"
for tenths in 415 425 480; do
    printf '%s\n' "BEGIN board.temperature" "SET cpu = $tenths" "END"
    sleep "$1"
done
END
chmod +x temperature

"$root/nda" new 1
"$root/nda" collect 1 1 ./temperature
for group in count min max; do
    "$root/nda" query board.temperature 0 1 4294967295 "$group"
done
rm -r "$work"
