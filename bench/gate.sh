#!/usr/bin/env bash
# Runs the gate. It prints for each of its parts when it was done, and at the end a table of the
# processor time that each crate took: for its proof, for the proof of its tests and for its must-fail
# edits, in seconds, looked up every two seconds. It counts every prover of the machine, so nothing
# else may prove beside it. Parts run side by side. What an earlier run on this
# machine proved is kept, says so, and costs nothing; `rt ci --anew` behind it proves all.
set -o pipefail
cd "$(dirname "$0")/.." || exit 1
costs=$(mktemp)
trap 'kill "$sampler" 2>/dev/null; rm -f "$costs"' EXIT

# The processes of the prover, each with its crate, its part and its processor time so far.
sample() {
    while sleep 2; do
        for process in $(pgrep -x rattle); do
            words=$(tr '\0' ' ' <"/proc/$process/cmdline" 2>/dev/null) || continue
            crate=$(sed -n 's/.*--crate-name \([a-z_]*\).*/\1/p' <<<"$words")
            part=proof
            [[ $words == *' --test '* ]] && part=tests
            [[ $(readlink "/proc/$process/cwd") == */rt-edit-* ]] && part=edits
            echo "$process ${crate:-none} $part $(ps -o cputimes= -p "$process")"
        done >>"$costs"
    done
}
sample &
sampler=$!
"${@:-.ci/run}" 2>&1 | awk '
    BEGIN { "date +%s" | getline start; close("date +%s") }
    /^rt: / || / passed, [0-9]+ failed/ {
        "date +%s" | getline now; close("date +%s")
        passed = now - start
        printf "%3d:%02d  %s\n", passed / 60, passed % 60, $0
        fflush()
    }'
status=$?
kill "$sampler"
printf '%-18s %8s %8s %8s %8s\n' crate proof tests edits all
awk '
    NF == 4 { key = $1 " " $2 " " $3; if ($4 > most[key]) most[key] = $4 }
    END {
        for (key in most) { split(key, of, " "); spent[of[2] " " of[3]] += most[key]; crates[of[2]] = 1 }
        for (crate in crates)
            printf "%-18s %8d %8d %8d %8d\n", crate, spent[crate " proof"], spent[crate " tests"],
                spent[crate " edits"], spent[crate " proof"] + spent[crate " tests"] + spent[crate " edits"]
    }' "$costs" | sort -k5,5nr
exit "$status"
