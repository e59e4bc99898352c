#!/usr/bin/env bash
# Tries the must-fail edits that the gate leaves out: those under bench/edits, of the crates that are
# named, or of all crates there. The prover has to refuse each. It works on a copy, and proves each
# crate once before its first edit, which takes minutes for each of them.
set -o pipefail
cd "$(dirname "$0")/.." || exit 1
copy=$(mktemp -d)
trap 'rm -rf "$copy"' EXIT
names=("$@")
[ ${#names[@]} -gt 0 ] || mapfile -t names < <(ls bench/edits)
git init -q "$copy" || exit 1
tar -c --exclude=out crates crates.txt HANDLES | tar -x -C "$copy" || exit 1
for name in "${names[@]}"; do
    if [ ! -d "bench/edits/$name" ]; then
        echo "edits.sh: no edits of $name: name one of $(ls bench/edits | tr '\n' ' ')" >&2
        exit 2
    fi
    rm -rf "$copy/crates/$name/must-fail"
    cp -r "bench/edits/$name" "$copy/crates/$name/must-fail" || exit 1
done
cd "$copy" && rt must-fail "${names[@]}"
