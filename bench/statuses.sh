#!/usr/bin/env bash
# Runs the built program with each number of arguments and to each status, over real standard input
# and output, and compares its status and the first line that it writes. The gate runs it with one
# argument and to one status. It fails where one differs.
cd "$(dirname "$0")/.." || exit 1
grid=${1:-crates/grid/out/grid-proved}
[ -x "$grid" ] || { echo "statuses.sh: $grid isn't there: run ./build first, or name a program" >&2; exit 2; }
failed=0
scratch=$(mktemp -d)
trap 'rm -rf "$scratch"' EXIT

# expect STATUS FIRST_LINE COMMAND..: the command's standard input is that of this call.
expect() {
    local wanted=$1 line=$2 status
    shift 2
    "$@" >"$scratch/out" 2>"$scratch/err"
    status=$?
    if [ "$status" = "$wanted" ] && [ "$(head -n 1 "$scratch/out")" = "$line" ] && [ ! -s "$scratch/err" ]; then
        echo "same    $wanted  ${*/#$grid/grid}"
    else
        echo "differs $status in place of $wanted  ${*/#$grid/grid}"
        failed=1
    fi
}
usage=$("$grid")
settings='grid nodes 1 segments 1 owners 1 partition plain values int chunk 2'
head=$'script step\nnodes 1\nsegments 1\nowners 1\npartition plain\nvalues int\nchunk 2\n'
full() {
    printf '%s' "$head"
    for key in $(seq 1000); do echo "put 0 k$key 1"; done
    for call in $(seq 2100); do printf 'call %s 0 exact 1 1000 count\nfinish %s\n' "$call" "$call"; done
}
expect 0 "$settings" "$grid" step <<<"$head"
expect 0 "$settings" "$grid" step --form brief <<<"$head"
expect 0 '{"calls":[],"keys":0,"nodes":[0],"topology":"NO_REBALANCE 0"}' "$grid" step --form=json <<<"$head"
expect 0 'grid nodes 4 segments 64 owners 2 partition plain values int chunk 100' "$grid" gen 7 --steps=0 --keys 1 --form brief </dev/null
live=${head/step/live}
expect 0 "$settings" "$grid" live <<<"${live%$'\n'}"
expect 0 "$settings" "$grid" live --workers 8 --form=brief <<<"${live%$'\n'}"
expect 2 "$usage" "$grid" live --workers 9 <<<"${live%$'\n'}"
expect 2 "$usage" "$grid" step --workers 2 <<<"$head"
expect 3 'refused 1 OtherKind' "$grid" live <<<"$head"
expect 3 'refused 1 OtherKind' "$grid" step <<<"$live"
expect 3 'refused 8 Syntax' "$grid" live <<<"${live}tick 1"
expect 4 '' "$grid" live <.
expect 2 "$usage" "$grid" </dev/null
expect 2 "$usage" "$grid" step --form briefs <<<"$head"
expect 2 "$usage" "$grid" step --form brief full <<<"$head"
expect 2 "$usage" "$grid" step '"' <<<"$head"
expect 2 "$usage" "$grid" step $'\xff' <<<"$head"
expect 3 'refused 8 Syntax' "$grid" step <<<"${head}joins 1"
expect 4 '' "$grid" step <.
expect 7 'full 5009' "$grid" step < <(full)
"$grid" step <<<"$head" >/dev/full 2>"$scratch/err"
status=$?
if [ "$status" = 5 ] && [ ! -s "$scratch/err" ]; then
    echo 'same    5  grid step, its output full'
else
    echo "differs $status in place of 5  grid step, its output full"
    failed=1
fi
exit "$failed"
