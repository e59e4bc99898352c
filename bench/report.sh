#!/usr/bin/env bash
# Makes a journal of writes, with and without its report, at two sizes. Prints the time and the peak
# memory of each run, and how long the report is.
source "$(dirname "$0")/built.sh" report_writes
for count in 500000 1000000; do
    for told in journal report; do
        echo "$count $told" | /usr/bin/time -f "$count events, $told: %e s, %U s of work, %M KB at most" out/report_writes >"$folder/out"
    done
    echo "$count events: a report of $(wc -c <"$folder/out") bytes"
done
