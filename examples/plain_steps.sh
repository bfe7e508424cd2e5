#!/usr/bin/env bash
# Compares plain_steps.rs with the program on every example, replayed with the example plan:
# plain_steps.sh [PROGRAM]. It needs rustc, and the proved program to be quick.
#
# Prints a line for each, and ends with status 1 where the two differ. Rows of live calls and calls inside the
# office are not for plain_steps, which refuses them.
set -euo pipefail

here=$(cd "$(dirname "$(readlink -f "${BASH_SOURCE[0]}")")" && pwd)
program=${1:-$here/../bin/crossbar5}
[[ $program == /* ]] || program=$PWD/$program
folder=$(mktemp -d)
trap 'rm -r "$folder"' EXIT
failures=0

rustc --edition 2021 -O -o "$folder/plain_steps" "$here/plain_steps.rs"
for rows in "$here"/*.csv; do
    name=$(basename "$rows" .csv)
    if ! "$folder/plain_steps" replay <"$rows" >"$folder/plain" 2>/dev/null; then
        echo "$name: not for plain_steps"
    elif "$program" replay <"$rows" >"$folder/out" && cmp -s "$folder/plain" "$folder/out"; then
        echo "$name: the same"
    else
        echo "$name: differs"
        failures=$((failures + 1))
    fi
done

exit $((failures > 0))
