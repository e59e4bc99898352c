#!/usr/bin/env bash
# Fills one segment of a container and scans it in batches of ten from end to end, at two sizes, and
# prints the time and the peak memory of each run.
source "$(dirname "$0")/built.sh" container_scan
for count in 100000 200000; do
    echo "$count" | /usr/bin/time -f "$count entries: %e s, %U s of work, %M KB at most" out/container_scan
done
