#!/usr/bin/env bash
# Reads scripts of 2 and of 4 MB in four shapes: notes of one byte, orders of one word, puts at
# different keys, and calls whose pipelines fill their lines. Prints the time and the peak memory of
# each run.
source "$(dirname "$0")/built.sh" script_orders
for shape in notes orders puts calls; do
    for bytes in 2097152 4194304; do
        awk -v shape="$shape" -v most="$bytes" '
            function add(line) {
                used += length(line) + 1
                if (used > most) exit
                print line
            }
            BEGIN {
                count = split("script step,nodes 1,segments 1,owners 1,partition plain,values int,chunk 100", head, ",")
                for (i = 1; i <= count; i++) add(head[i])
                for (i = 0; i < 98; i++) { sum = sum "(value + "; behind = behind ")" }
                for (i = 1; shape != "calls" || i <= 4096; i++) {
                    if (shape == "notes") add(";")
                    if (shape == "orders") add("settle")
                    if (shape == "puts") add("put 0 k" i " " i)
                    if (shape == "calls") add("call " i " 0 exact 1 1000 map " sum "value" behind " | sum")
                }
            }' >"$folder/in"
        /usr/bin/time -f "$shape, $bytes bytes: %e s, %U s of work, %M KB at most" out/script_orders <"$folder/in"
    done
done
