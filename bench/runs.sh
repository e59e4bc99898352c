#!/usr/bin/env bash
# Times ./grid on runs of a whole cluster, each beside one of half its size: runs of the generator,
# told in full and in brief; calls of 256 segments that make a million events; a rebalance of 256
# segments over nine nodes in chunks of one entry; fifteen arrivals behind many calls; and a script of
# 4 MB.
# Prints the time and the peak memory of each run. The first run, which may build the program, isn't
# timed.
set -e
cd "$(dirname "$0")/.."
folder=$(mktemp -d)
trap 'rm -rf "$folder"' EXIT
./grid step <examples/first.grid >"$folder/first"

# Runs ./grid with the words behind the name of the run, and tells its status, its time and its memory.
timed() {
    name=$1
    shift
    status=0
    /usr/bin/time -q -o "$folder/time" -f "%e s, %U s of work, %M KB at most" ./grid "$@" \
        <"$folder/script" >"$folder/out" || status=$?
    echo "$name: status $status, $(wc -c <"$folder/out") bytes, $(cat "$folder/time")"
}

# Tells the settings of a stepped script: so many nodes, segments, owners and entries a chunk.
settings() {
    printf 'script step\nnodes %s\nsegments %s\nowners %s\npartition plain\nvalues int\nchunk %s\n' "$@"
}

# Tells so many puts, one after the other at so many nodes.
puts() {
    awk -v puts="$1" -v nodes="$2" \
        'BEGIN { for (i = 0; i < puts; i++) print "put " i % nodes " k" i " " i }'
}

# Tells so many calls, each driven to its answer before the next.
calls() {
    seq "$1" | awk '{ print "call " $1 " 0 exact 1 1 count\nfinish " $1 }'
}

: >"$folder/script"
timed "gen 7" gen 7
for size in 25000 50000; do
    for form in brief full; do
        timed "gen 7, $size keys and steps, $form" gen 7 --keys $size --steps $size --form $form
    done
done
for calls in 648 1297; do
    { settings 1 256 1 1; calls "$calls"; } >"$folder/script"
    timed "$calls calls of 256 segments" step
done
for keys in 8000 16000; do
    { settings 8 256 2 1; puts $keys 8; printf 'join 8\nsettle\n'; } >"$folder/script"
    timed "a rebalance of $keys keys" step
done
for calls in 400 800; do
    { settings 1 256 2 1000; calls "$calls"; seq 15 | sed 's/.*/join &\nsettle/'; } >"$folder/script"
    timed "$calls calls of 256 segments, and then fifteen arrivals" step
done
for keys in 104000 208000; do
    { settings 4 64 2 1000; puts $keys 4; printf 'call 1 0 exact 4 1000 count\nfinish 1\n'; } >"$folder/script"
    timed "a script of $(wc -c <"$folder/script") bytes, $keys puts" step --form brief
done
