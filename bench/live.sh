#!/usr/bin/env bash
# Times ./grid live with 1, 2, 4 and 8 workers a node: twelve calls over 20,000 entries at four nodes,
# made by four sessions; and four calls whose parts are long to make, 98 nested sums over 100,000 keys
# at one node, made by one session. Prints for each the time, the processor time and the peak memory,
# the least of five runs each. The first run, which may build the program, isn't timed.
set -e
cd "$(dirname "$0")/.."
folder=$(mktemp -d)
trap 'rm -rf "$folder"' EXIT
./grid step <examples/first.grid >"$folder/first"

# The settings of a live script: so many nodes, segments and owners.
settings() {
    printf 'script live\nnodes %s\nsegments %s\nowners %s\npartition plain\nvalues int\nchunk 1000\nload\n' "$@"
}

# So many puts of the load.
puts() { seq 0 $(($1 - 1)) | awk '{ print "put k" $1 " " $1 }'; }

# So many sessions, each at a node of its own, that make so many calls of a pipeline.
sessions() {
    seq "$1" | awk -v calls="$2" -v pipeline="$3" '{
        print "session " $1 " " $1 - 1
        for (k = 1; k <= calls; k++) print "call " ($1 - 1) * calls + k " exact 4 1000 " pipeline
    }'
}

{ settings 4 64 2; puts 20000; sessions 4 3 count; } >"$folder/counts"
sum=value
for _ in $(seq 98); do sum="($sum + value)"; done
{ settings 1 64 1; puts 100000; sessions 1 4 "map $sum | sum"; } >"$folder/sums"

printf '%-10s %8s %10s %12s %10s\n' script workers 'time, s' 'processor, s' 'peak, MB'
for script in counts sums; do
    for workers in 1 2 4 8; do
        for _ in 1 2 3 4 5; do
            /usr/bin/time -q -a -o "$folder/$script.$workers" -f '%e %U %S %M' \
                ./grid live --workers $workers --form brief <"$folder/$script" >"$folder/out"
        done
        sort -n "$folder/$script.$workers" | awk -v script=$script -v workers=$workers '
            NR == 1 { time = $1; work = $2 + $3; peak = $4 }
            $2 + $3 < work { work = $2 + $3 }
            $4 < peak { peak = $4 }
            END { printf "%-10s %8d %10.2f %12.2f %10.0f\n", script, workers, time, work, peak / 1000 }'
    done
done
