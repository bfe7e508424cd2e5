#!/usr/bin/env bash
# Runs every example and compares what comes of it with the file NAME.out, NAME.walk of a walk, NAME.svg or NAME.txt
# of a drawing, NAME.html of a page; live calls, which may come in other turns, are judged by an audit:
# run_all.sh [PROGRAM]
#
# Prints a line for each, and last `N passed, M failed`; the status is 1 where one differs.
set -euo pipefail

here=$(cd "$(dirname "$(readlink -f "${BASH_SOURCE[0]}")")" && pwd)
program=${1:-$here/../bin/crossbar5}
[[ $program == /* ]] || program=$PWD/$program
folder=$(mktemp -d)
trap 'rm -r "$folder"' EXIT
passed=0 failures=0

tell() {
    echo "$1: $2"
    if [[ $2 == as\ expected ]]; then passed=$((passed + 1)); else failures=$((failures + 1)); fi
}

# A replay of NAME.csv, by the words that follow.
replay() {
    local name=$1
    shift
    if "$program" replay "$@" <"$here/$name.csv" >"$folder/out" && cmp -s "$folder/out" "$here/$name.out"; then
        tell "$name" "as expected"
    else
        tell "$name" "differs from $name.out"
    fi
}

# A walk of NAME.csv, by the words that follow, is the file FILE.
walk() {
    local name=$1 file=$2
    shift 2
    if "$program" walk "$@" <"$here/$name.csv" >"$folder/out" && cmp -s "$folder/out" "$here/$file"; then
        tell "$file" "as expected"
    else
        tell "$file" "differs"
    fi
}

# The drawing of the office after NAME.out, by the words that follow, is the file FILE.
draw() {
    local name=$1 file=$2
    shift 2
    if "$program" draw "$@" <"$here/$name.out" >"$folder/out" && cmp -s "$folder/out" "$here/$file"; then
        tell "$file" "as expected"
    else
        tell "$file" "differs"
    fi
}

# The page of NAME.out, by the words that follow, is NAME.html.
page() {
    local name=$1
    shift
    if "$program" page "$@" <"$here/$name.out" >"$folder/out" && cmp -s "$folder/out" "$here/$name.html"; then
        tell "$name.html" "as expected"
    else
        tell "$name.html" "differs"
    fi
}

# Live calls of NAME.csv, by the markers that the words ask for.
live() {
    local name=$1
    shift
    if "$program" live "$@" <"$here/$name.csv" | "$program" audit >"$folder/out"; then
        tell "$name $*" "as expected"
    else
        tell "$name $*" "not legal: $(head -n 1 "$folder/out")"
    fi
}

replay three_dials
replay calls
replay inside_call
page inside_call
replay two_markers --markers XX
replay meeting --markers XX
walk meeting meeting.walk --markers XX
walk meeting meeting_short.walk --markers XX --short
replay trouble --plan "$here/small_town.toml"
walk trouble trouble.walk --plan "$here/small_town.toml"
draw trouble trouble.svg --plan "$here/small_town.toml"
draw trouble trouble.txt --plan "$here/small_town.toml" --text
page trouble --plan "$here/small_town.toml"
replay hunting --plan "$here/hunting.toml"
replay ten_calls_from_one_frame --plan "$here/many_registers.toml"
live live_calls --dial 1 --completing 1
live live_calls --dial 2 --completing 2

echo "$passed passed, $failures failed"
exit $((failures > 0))
