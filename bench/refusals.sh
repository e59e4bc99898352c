#!/usr/bin/env bash
# Refuses each request for memory of a run in turn, one a run, for every run of worked_rows, and
# compares: the run ends with status 6 and has written nothing, or it ends as it does with all its
# memory, byte for byte. It prints a line for each row with the number of requests, how many runs
# ended with status 6 and how many as without a refusal, and fails at the first that does neither.
# A row with more than 20,000 requests has 2,000 of them refused, evenly. Then the same for the rows
# of live_rows, where each result that the row allows counts as without a refusal; and each thread of
# these is refused in turn, after which the run ends with such a result. A run of more than a minute is
# a failure. With names behind it, it takes the rows of these names. The program is that of ./grid.
set -e
cd "$(dirname "$0")/.."
folder=$(mktemp -d)
trap 'rm -rf "$folder"' EXIT
data=crates/worked_rows/data
live=crates/live_rows/data
./grid step <examples/first.grid >"$folder/first"
gcc -O2 -shared -fPIC -o "$folder/refuse.so" bench/refuse.c
program=crates/grid/out/grid-proved
[ -x "$program" ] || program=crates/grid/out/grid-unproved

# One run with the N-th request and the M-th thread refused (0: none): its status is the answer.
run() {
    local refused=$1 thread=$2 script=$3
    shift 3
    timeout 60 env REFUSE="$refused" REFUSE_THREAD="$thread" REFUSE_COUNT="$folder/count" \
        LD_PRELOAD="$folder/refuse.so" "$program" "$@" <"$script" >"$folder/out" 2>/dev/null
}

# How many requests and how many threads there were.
counts() { od -An -v -w16 -tu8 "$folder/count"; }

# Whether what was written is one of the texts of a file, between which stand lines `or`.
is_among() {
    rm -f "$folder"/text.*
    awk -v name="$folder/text." 'BEGIN { n = 1 } $0 == "or" { n++; next } { print >(name n) }' "$1"
    local text
    for text in "$folder"/text.*; do
        ! cmp -s "$folder/out" "$text" || return 0
    done
    return 1
}

printf '%-44s %10s %10s %10s\n' row requests refused same
while read -r name _ _ _ script words; do
    [ -n "$script" ] || continue
    [ $# -eq 0 ] || case " $* " in *" $name "*) ;; *) continue ;; esac
    source=$data/$script.grid
    [ -f "$source" ] || source=/dev/null
    # shellcheck disable=SC2086
    run 0 0 "$source" $words && status=0 || status=$?
    mv "$folder/out" "$folder/whole"
    read -r requests _ <<<"$(counts)"
    step=1
    [ "$requests" -le 20000 ] || step=$((requests / 2000))
    refused=0 same=0
    for ((number = 1; number <= requests; number += step)); do
        # shellcheck disable=SC2086
        run "$number" 0 "$source" $words && ended=0 || ended=$?
        if [ "$ended" -eq 6 ] && [ ! -s "$folder/out" ]; then
            refused=$((refused + 1))
        elif [ "$ended" -eq "$status" ] && cmp -s "$folder/out" "$folder/whole"; then
            same=$((same + 1))
        else
            echo "$name: with request $number refused it ends with status $ended" >&2
            exit 1
        fi
    done
    printf '%-44s %10s %10s %10s\n' "$name" "$requests" "$refused" "$same"
done <"$data/rows"

printf '\n%-44s %10s %10s %10s %10s\n' 'live row' requests refused same threads
while read -r name status _ script words; do
    [ $# -eq 0 ] || case " $* " in *" $name "*) ;; *) continue ;; esac
    source=$live/$script.grid
    # shellcheck disable=SC2086
    run 0 0 "$source" $words || true
    read -r requests threads <<<"$(counts)"
    requests=$((requests + requests / 10))
    step=1
    [ "$requests" -le 20000 ] || step=$((requests / 200))
    refused=0 same=0
    for ((number = 1; number <= requests; number += step)); do
        # shellcheck disable=SC2086
        run "$number" 0 "$source" $words && ended=0 || ended=$?
        if [ "$ended" -eq 6 ] && [ ! -s "$folder/out" ]; then
            refused=$((refused + 1))
        elif [ "$ended" -eq "$status" ] && is_among "$live/$name.whole"; then
            same=$((same + 1))
        else
            echo "$name: with request $number refused it ends with status $ended" >&2
            exit 1
        fi
    done
    for ((number = 1; number <= threads; number++)); do
        # shellcheck disable=SC2086
        run 0 "$number" "$source" $words && ended=0 || ended=$?
        if [ "$ended" -ne "$status" ] || ! is_among "$live/$name.whole"; then
            echo "$name: with thread $number refused it ends with status $ended" >&2
            exit 1
        fi
    done
    printf '%-44s %10s %10s %10s %10s\n' "$name" "$requests" "$refused" "$same" "$threads"
done <"$live/rows"
