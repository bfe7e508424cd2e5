#!/usr/bin/env bash
# Does the same calls live again and again, by more and more markers, and has each run's records audited:
# many_live_runs.sh [RUNS [PROGRAM]]
#
# Run k has 1 + k mod 24 markers that dial and 1 + k mod 23 that complete calls. The first run whose status, audit or
# calls aren't as they must be is named, and is the last, with status 1. The last line is `N passed, M failed`.
set -euo pipefail

runs=${1:-1000}
root=$(cd "$(dirname "$(readlink -f "${BASH_SOURCE[0]}")")/.." && pwd)
program=${2:-$root/bin/crossbar5}
folder=$(mktemp -d)
trap 'rm -r "$folder"' EXIT

# 300 calls from as many lines: out of the office by two codes, to numbers of it, and to no number; every
# third is kept, so that the others find less and less idle.
make_calls() {
    local call digits
    for ((call = 0; call < 300; call++)); do
        case $((call % 4)) in
            0) digits=5551234 ;;
            1) digits=$((2340001 + call / 4 % 4)) ;;
            2) digits=5550000 ;;
            *) digits=9990000 ;;
        esac
        printf 'C,%d,%d%d%d%d,%d,%s\n' "$call" $((call % 10)) $((call / 10 % 10)) \
            $((call / 100)) $((call % 5)) "$digits" "$( ((call % 3 == 0)) && echo K || echo R)"
    done
}

failed() {
    echo "run $1, $2 and $3 markers: $4" >&2
    echo "$1 passed, 1 failed"
    exit 1
}

make_calls >"$folder/calls.csv"
for ((run = 0; run < runs; run++)); do
    dial=$((1 + run % 24))
    completing=$((1 + run % 23))
    "$program" live --dial "$dial" --completing "$completing" \
        <"$folder/calls.csv" >"$folder/records" || failed "$run" "$dial" "$completing" "status $?"
    "$program" audit <"$folder/records" >"$folder/audit" \
        || failed "$run" "$dial" "$completing" "$(head -1 "$folder/audit")"
    # Each call is dialled once: its job's number is three times its own.
    dialled=$(awk -F, '$4 == "D" && $2 % 3 == 0 { print $2 / 3 }' "$folder/records" | sort -n)
    [[ $dialled == "$(seq 0 299)" ]] || failed "$run" "$dial" "$completing" "calls are missing"
done
echo "each run legal, and all calls done once in each"
echo "$runs passed, 0 failed"
