#!/usr/bin/env bash
# Evaluates `filter (0 < value) | map value | distinct | sum` over entries of different values, at
# two sizes, and prints the time and the peak memory of each run.
source "$(dirname "$0")/built.sh" pipeline_sum
for count in 50000 100000; do
    # each number from 1 to the count once, far from its order
    awk -v n="$count" 'BEGIN { for (i = 0; i < n; i++) print (i * 7919) % n + 1 }' >"$folder/in"
    /usr/bin/time -f "$count entries: %e s, %U s of work, %M KB at most" out/pipeline_sum <"$folder/in"
done
