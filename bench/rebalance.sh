#!/usr/bin/env bash
# Times ./grid on rebalances of 256 segments over at most 16 nodes, with the hash created anew and
# with the one that moves least. Eight nodes with two owners a segment get 20,000 entries; then eight
# nodes join and four depart, one after the other, each with the rebalance that follows.
# Prints of each setting the time, the peak memory, the number of events and how many entries were
# copied. The first run, which may build the program, isn't timed.
set -e
cd "$(dirname "$0")/.."
folder=$(mktemp -d)
trap 'rm -rf "$folder"' EXIT
./grid step <examples/first.grid >"$folder/first"

# Tells the script with the setting of the hash.
script() {
    printf 'script step\nnodes 8\nsegments 256\nowners 2\npartition plain\nvalues int\nchunk 1000\nhash %s\n' "$1"
    awk 'BEGIN { for (i = 0; i < 20000; i++) print "put " i % 8 " k" i " " i }'
    seq 8 15 | sed 's/.*/join &\nsettle/'
    seq 0 3 | sed 's/.*/depart &\nsettle/'
}

for hash in create least; do
    script $hash >"$folder/script"
    /usr/bin/time -q -o "$folder/time" -f "%e s, %U s of work, %M KB at most" ./grid step --form full \
        <"$folder/script" >"$folder/report"
    copied=$(awk '$2 == "copy" { copied += $6 } END { print copied + 0 }' "$folder/report")
    echo "hash $hash: $(cat "$folder/time"), $(tail -n 1 "$folder/report" | cut -d ' ' -f 2) events, $copied entries copied"
done
./grid step --form brief <"$folder/script" | grep '^least ' | awk '{ moved += $3 } END { print "hash least moved " moved " primaries in " NR " rebalances" }'
