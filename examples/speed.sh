#!/usr/bin/env bash
# Makes the traffic that docs/SPEED.md speaks of, has the built program replay it, look at it or do its calls, and prints
# for each the least and the median milliseconds of 31 whole processes: speed.sh [PROGRAM [PLAIN]]
# PLAIN is examples/plain_steps.rs, built as it says: the same jobs in ordinary Rust.
set -euo pipefail

root=$(cd "$(dirname "$(readlink -f "${BASH_SOURCE[0]}")")/.." && pwd)
program=${1:-$root/crates/crossbar5_program/out/crossbar5_program}
plain=${2:-}
[[ -x $program ]] || { echo "speed.sh: $program isn't built; bin/build builds it" >&2; exit 1; }
folder=$(mktemp -d)
trap 'rm -r "$folder"' EXIT

# A job of each row's number on a line, Dial, Complete and Release in turn, and 128 steps for its marker.
jobs() {
    seq 0 9998 | awk -v markers="$1" '{
        m = markers == 2 ? $1 % 2 : int($1 / 3) % markers
        line = markers == 2 ? (m ? 3052 : 3041) : m % 10 "" int(m / 10) "00"
        k = markers == 2 ? int($1 / 2) % 3 : $1 % 3
        print "J," m "," $1 "," (k == 0 ? "D," line : k == 1 ? "C," line " 5551234" : "R," line)
        print "S," m ",128,,"
    }'
}

# A plan with as much as a plan may have: 16 groups of 40 members, 3,000 numbers, 64 codes, 100 faults.
full_plan() {
    printf 'version = 2\ngroups = [\n'
    for ((g = 0; g < 16; g++)); do
        if ((g == 0)); then printf '  "G0 register'; elif ((g < 4)); then printf '  "G%d intra' "$g"; else printf '  "G%d outgoing' "$g"; fi
        for ((k = 0; k < 40; k++)); do
            if ((g == 0)); then printf ' %03d' "$k"
            elif ((g < 4)); then printf ' %03d-%03d' $((80 * g - 40 + 2 * k)) $((80 * g - 39 + 2 * k))
            else printf ' %03d' $((120 + 40 * g + k)); fi
        done
        echo '",'
    done
    printf ']\nnumbers = [\n'
    seq 0 2999 | awk '{ printf "  \"%04d %d%d%d%d\",\n", $1, $1 % 10, int($1 / 10) % 10, int($1 / 100) % 6, $1 / 600 }'
    printf ']\ncodes = [\n'
    for ((c = 0; c < 8; c++)); do printf '  "%03d G1 G2 G3",\n' "$c"; done
    for ((c = 8; c < 64; c++)); do
        printf '  "%03d G%d G%d G%d G%d",\n' "$c" $((4 + c % 12)) $((4 + (c + 1) % 12)) $((4 + (c + 2) % 12)) $((4 + (c + 3) % 12))
    done
    printf ']\nfaults = ['
    for ((k = 0; k < 100; k++)); do printf '"JU%d%d%d", ' $((k % 10)) $((k / 10)) $((k * 3 % 10)); done
    echo ']'
}

# Calls under it, every other one inside the office, by 48 markers in turn.
full_jobs() {
    seq 0 9998 | awk '{
        call = int($1 / 3); m = call % 48; k = $1 % 3
        line = call % 10 "" int(call / 10) % 10 "" int(call / 100) % 6 "" int(call / 600) % 5
        digits = call % 2 ? sprintf("%03d%04d", 8 + call % 56, call) : sprintf("%03d%04d", call % 8, (call * 7 + 1) % 3000)
        print "J," m "," $1 "," (k == 0 ? "D," line : k == 1 ? "C," line " " digits : "R," line)
        print "S," m ",128,,"
    }'
}

seq 1 9999 | awk '{ print "J,0," $1 ",D,3041"; print "S,0,96,," }' >"$folder/dials.csv"
seq 1 9999 | awk '{ print "J,0," $1 "," ($1 % 2 ? "D" : "R") ",3041"; print "S,0,96,," }' >"$folder/tones.csv"
for ((row = 0; row < 100000; row++)); do echo S,0,9999,,; done >"$folder/idle.csv"
{
    printf 'J,0,1,D,3041\nS,0,4,,\nJ,1,2,D,3052\n'
    for ((row = 0; row < 200; row++)); do echo S,1,9999,,; done
} >"$folder/wait.csv"
{
    printf 'J,1,2,D,3052\nS,1,128,,\nJ,0,1,D,4000\nS,0,6,,\nJ,1,3,C,3052 0000001\n'
    for ((row = 0; row < 200; row++)); do echo S,1,9999,,; done
} >"$folder/wait_further.csv"
full_plan >"$folder/full.toml"
full_jobs >"$folder/full.csv"
jobs 2 >"$folder/calls.csv"
jobs 48 >"$folder/calls48.csv"
seq 0 9999 | awk '{ print "C," $1 "," $1 % 10 int($1 / 10) % 10 int($1 / 100) % 6 int($1 / 600) % 5 ",5551234,R" }' \
    >"$folder/live.csv"

# Measures 31 runs of a program with a file and words, and says so in these.
measure() {
    local what=$1 of=$2 file=$3 start end k
    shift 3
    for ((k = 0; k < 31; k++)); do
        start=$(date +%s%N)
        "$of" "$@" <"$folder/$file" >"$folder/out" || true
        end=$(date +%s%N)
        echo $(((end - start) / 100000))
    done | sort -n | awk -v what="$file$what" '{ time[NR] = $1 }
        END { printf "%5.1f, %5.1f ms  %s\n", time[1] / 10, time[16] / 10, what }'
}

full=(--plan "$folder/full.toml")
all=(--markers "$(printf 'X%.0s' {1..48})")
grep -m 1 "model name" /proc/cpuinfo || true
for file in dials.csv tones.csv idle.csv calls.csv wait.csv; do measure "" "$program" $file replay; done
measure ", 48 markers" "$program" calls48.csv replay "${all[@]}"
measure ", 48 markers, the full plan" "$program" full.csv replay "${all[@]}" "${full[@]}"
measure ", the full plan" "$program" wait.csv replay "${full[@]}"
measure ", the full plan" "$program" wait_further.csv replay "${full[@]}"
for count in 1 100 1000; do
    head -n $((2 * count)) "$folder/calls48.csv" >"$folder/calls48_$count.csv"
    for view in words json svg; do
        measure ", 48 markers, look --$view" "$program" "calls48_$count.csv" look "--$view" "${all[@]}"
    done
done
measure "" "$program" live.csv live
measure ", two markers of each kind" "$program" live.csv live --dial 2 --completing 2
if [[ -n $plain ]]; then
    for file in dials tones idle calls calls48; do measure ", ordinary Rust" "$plain" $file.csv replay; done
    measure ", ordinary Rust" "$plain" live.csv calls 1
    measure ", two markers of each kind, ordinary Rust" "$plain" live.csv calls 2
fi
