#!/usr/bin/env bash
# Times ./grid on scripts in which much happens at each line, each beside one of half its size: many
# ticks, arrivals, departures, rounds, calls and chunks over much that is there. Prints a table with
# the processor time and the peak memory of both, the least of three runs each, and fails where the
# whole takes more than 2.3 times what the half takes; a twentieth of a second doesn't count. With
# words behind it, it runs the scripts that are named. The first run, which may build the program,
# isn't timed.
set -e
cd "$(dirname "$0")/.."
folder=$(mktemp -d)
trap 'rm -rf "$folder"' EXIT
./grid step <examples/first.grid >"$folder/first"

# The settings of a script: so many nodes, segments, owners and entries a chunk, and the values.
settings() {
    printf 'script step\nnodes %s\nsegments %s\nowners %s\npartition plain\nvalues %s\nchunk %s\n' \
        "$1" "$2" "$3" "${5:-int}" "$4"
}

# So many puts, one after the other at so many nodes.
puts() { seq 0 $(($1 - 1)) | awk -v nodes="$2" '{ print "put " $1 % nodes " k" $1 " " $1 }'; }

# So many puts that expire one a tick.
lasting() { seq "$1" | awk '{ print "put 0 k" $1 " 1 for " $1 }'; }

# So many calls of a pipeline in batches of a size, each driven to its answer before the next.
calls() { seq "$1" | awk -v batch="$2" -v pipeline="$3" '{ print "call " $1 " 0 exact 1 " batch " " pipeline "\nfinish " $1 }'; }

# A line so many times.
times() { seq "$1" | sed "s/.*/$2/"; }

# Nodes join one after the other, each before the rebalance of the one before has ended or after it.
join_at_once() { seq "$1" "$2" | sed 's/^/join /'; }
join_in_turn() { seq "$1" "$2" | sed 's/.*/join &\nsettle/'; }

# So many nodes install the newest topology.
announced() { printf 'announce\n'; seq 0 $(($1 - 1)) | sed 's/^/install /'; }

# A chunk of each of 256 segments at four owners is sent to each of the nodes from 4 to 15 that is
# an owner among sixteen.
sent() {
    awk 'BEGIN { for (s = 0; s < 256; s++) for (j = 0; j < 4; j++) if ((s + j) % 16 >= 4) print "copy " (s + j) % 16 " " s }'
}

# The scripts, each at a size in percent.
flying_ticks() {
    settings 4 256 4 1000; puts $((100 * $1)) 1; join_at_once 4 15; announced 16; sent
    times $((300 * $1)) 'tick 1'
}
key_ticks() { settings 1 64 1 100; puts $((250 * $1)) 1; times $((500 * $1)) 'tick 1'; }
taking_ticks() { settings 2 64 2 100; lasting $((300 * $1)); times $((300 * $1)) 'tick 1'; }
taking_flying_ticks() {
    settings 4 256 4 1000; lasting $((200 * $1)); join_at_once 4 15; announced 16; sent
    times $((200 * $1)) 'tick 1'
}
expired_keys() {
    settings 1 1 1 1000; seq $((500 * $1)) | sed 's/.*/put 0 k& 1 for 1/'; echo 'tick 1'
    calls $((10 * $1)) 1 count
}
open_units() {
    settings 1 256 2 1000; seq $((8 * $1)) | sed 's/.*/call & 0 exact 1 1 count\nround &/'
    join_at_once 1 15; seq 0 14 | sed 's/.*/depart &\nsettle/'
}
arrivals() { settings 1 256 2 1000; calls $((8 * $1)) 1 count; join_in_turn 1 15; }
chunks_in_flight() {
    settings 15 256 4 1; puts $((200 * $1)) 15; echo 'join 15'; announced 16
    for segment in 30 31 45 46; do seq 0 15 | sed "s/.*/copy & $segment/"; done
    echo 'settle'
}
idle_announcements() {
    settings 4 256 4 1000; join_at_once 4 15; announced 16; times 1535 'advance'
    times $((1000 * $1)) 'announce'
}
open_calls() { settings 1 256 1 1; seq $((40 * $1)) | sed 's/.*/call & 0 exact 1 1 count/'; }
closed_units() { settings 1 256 1 1; calls $((12 * $1)) 1 count; }
members() {
    settings 1 64 2 100; puts $((100 * $1)) 1; join_in_turn 1 15
    seq 0 14 | sed 's/.*/depart &\nsettle/'
}
small_chunks() { settings 8 256 2 1; puts $((160 * $1)) 8; printf 'join 8\nsettle\n'; }
walks() {
    settings 2 64 1 100; puts 20000 2
    seq "$1" | awk '{ print "call " $1 " " $1 % 2 " exact 1 1 each\nfinish " $1 }' | head -n $((2 * ($1 / 4)))
}
distinct_values() { settings 1 16 1 100; puts $((400 * $1)) 1; calls 1 1 'map value | distinct | each'; }

# Runs a script at a size three times, and tells the least processor time and the least peak.
timed() {
    "$1" "$2" >"$folder/script"
    for _ in 1 2 3; do
        local status=0
        /usr/bin/time -q -a -o "$folder/times" -f "%U %S %M" ./grid step --form brief \
            <"$folder/script" >"$folder/out" || status=$?
        # a run that fills its journal ends with 7
        if [ "$status" -ne 0 ] && [ "$status" -ne 7 ]; then
            echo "$1 at $2: it ended with status $status" >&2
            exit 1
        fi
    done
    awk '{ t = $1 + $2; if (NR == 1 || t < least) least = t; if (NR == 1 || $3 < peak) peak = $3 }
        END { print least, peak }' "$folder/times"
    rm "$folder/times"
}

scripts="flying_ticks key_ticks taking_ticks taking_flying_ticks expired_keys open_units arrivals
    chunks_in_flight idle_announcements open_calls closed_units members small_chunks walks distinct_values"
[ $# -gt 0 ] || set -- $scripts
grown=0
printf '%-20s %8s %8s %6s %10s %10s\n' script 'half, s' 'full, s' times 'half, KB' 'full, KB'
for script in "$@"; do
    half=$(timed "$script" 50)
    full=$(timed "$script" 100)
    echo "$script $half $full" | awk '{
        printf "%-20s %8.2f %8.2f %6.1f %10d %10d\n", $1, $2, $4, $4 / ($2 > 0 ? $2 : 0.01), $3, $5
        exit $4 > 2.3 * $2 + 0.05
    }' || { echo "$script: it grows faster than its size" >&2; grown=1; }
done
exit $grown
