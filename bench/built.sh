# Builds the program crate that is named, enters its folder and makes a folder for what a run
# writes, which goes at the end. The other scripts read this one.
set -e
cd "$(dirname "$0")/../crates/$1"
folder=$(mktemp -d)
trap 'rm -rf "$folder"' EXIT
if ! rt run <stdin >"$folder/log" 2>&1; then
    cat "$folder/log"
    exit 1
fi
