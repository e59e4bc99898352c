#!/usr/bin/env bash
# Copies standard input to standard output through a source and a sink, at two sizes, and prints
# the time and the peak memory of each run.
source "$(dirname "$0")/built.sh" grid_copy
for megabytes in 16 256; do
    head -c $((megabytes * 1024 * 1024)) /dev/zero | tr '\0' a >"$folder/in"
    /usr/bin/time -f "$megabytes MB: %e s, %M KB at most" out/grid_copy <"$folder/in" >"$folder/out"
    cmp "$folder/in" "$folder/out"
done
