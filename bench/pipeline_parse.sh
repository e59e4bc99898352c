#!/usr/bin/env bash
# Reads and prints pipelines of 1,024 bytes, one a line, at two counts and in three shapes: nested
# as deep as the text allows, a list as long as it allows, and one long expression after another.
# Prints the time and the peak memory of each run.
source "$(dirname "$0")/built.sh" pipeline_lines
repeat() { printf "%.0s$1" $(seq "$2"); }
deep="map $(repeat 'not(' 201)value$(repeat ')' 201) | count"
wide="flatmap [value$(repeat ', value' 143)] | count"
long="filter (0 < value)$(repeat ' | map (value + 12345)' 45) | sum"
for shape in deep wide long; do
    for count in 5000 10000; do
        yes "${!shape}" | head -n "$count" >"$folder/in" || true
        /usr/bin/time -f "$shape (${#deep} ${#wide} ${#long} bytes), $count texts: %e s, %M KB at most" out/pipeline_lines <"$folder/in" >"$folder/out"
        head -n 1 "$folder/out"
    done
done
