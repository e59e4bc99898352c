#!/usr/bin/env bash
# Times ./grid on scripts of one node with N puts and one count, and prints the time and the peak
# memory of each run. The first run, which may build the program, isn't timed.
set -e
cd "$(dirname "$0")/.."
folder=$(mktemp -d)
trap 'rm -rf "$folder"' EXIT
./grid step <examples/first.grid >"$folder/first"
for puts in 10000 20000 50000 100000; do
    awk -v puts="$puts" 'BEGIN {
        print "script step\nnodes 1\nsegments 1\nowners 1\npartition plain\nvalues int\nchunk 100"
        for (i = 0; i < puts; i++) print "put 0 k" i " " i
        print "call 1 0 exact 1 1000 count\nfinish 1"
    }' >"$folder/script"
    /usr/bin/time -o "$folder/time" -f "%e s, %M KB at most" ./grid step <"$folder/script" >"$folder/report"
    if ! grep -q " answer 1 value count $puts\$" "$folder/report"; then
        echo "$puts puts: another answer" >&2
        exit 1
    fi
    echo "$puts puts: $(cat "$folder/time")"
done
