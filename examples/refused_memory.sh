#!/usr/bin/env bash
# Refuses the built program memory, and lets its reads and writes fail, one call after another:
# refused_memory.sh [PROGRAM]
#
# Each allocation is refused alone, and with all that follow; each read and each write fails so too, is interrupted,
# or moves one byte. Prints for each case how many calls it makes and how many runs that took, and ends with status 1
# at a wrong run, which it names. A run is right if it ends so:
#
#   memory refused             with its answer; or with status 5, FAULT,MEMORY and nothing on standard output
#   a read fails               with status 6, FAULT,DEVICE and nothing on standard output
#   a write fails              with status 6, FAULT,DEVICE and a beginning of the answer
#   standard error fails       with its answer
#   one byte is moved          with its answer
#
# An interrupted call is one that fails. A flush makes no call, so none can fail. The answer is what standard output
# and the status are when nothing is refused; the sentence on standard error may be missing. Records of live calls may
# differ from run to run: an audit has to find them legal, with each call dialled once. The last line is
# `N passed, M failed`, of runs; a wrong run ends the script.
#
# Needs cc, which makes a library of refuse.c, and bash, awk, xargs and timeout. Takes two minutes on four processors.
set -euo pipefail

here=$(cd "$(dirname "$(readlink -f "${BASH_SOURCE[0]}")")" && pwd)
program=${1:-$here/../crates/crossbar5_program/out/crossbar5_program}
[[ -x $program ]] || { echo "$program isn't built; bin/build builds it" >&2; exit 1; }
program=$(readlink -f "$program")
folder=$(mktemp -d)
trap 'rm -rf "$folder"' EXIT
cc -shared -fPIC -O2 -o "$folder/refuse.so" "$here/refuse.c"
export program folder

# How many runs tell the number of calls that a case makes: threads may make it differ.
looks=8
names=()
sum=0

# Runs a case with variables of refuse.c; what comes of it goes into a folder.
run() {
    local case=$1 to=$2 words
    shift 2
    mapfile -t words <"$folder/$case/words"
    timeout 60 env LD_PRELOAD="$folder/refuse.so" REFUSE_COUNTS="$to/counts" "$@" "$program" "${words[@]}" \
        <"$folder/$case/input" >"$to/out" 2>"$to/err" && echo 0 >"$to/status" || echo $? >"$to/status"
}

# Whether what was written is the answer: of live calls an audit has to judge that, and each call is dialled once.
is_right_text() {
    local case=$1 of=$2
    if [[ $(head -n 1 "$folder/$case/words") == live ]]; then
        "$program" audit <"$of/out" >/dev/null 2>&1 && [[ $(grep -c ',D,' "$of/out") == $(wc -l <"$folder/$case/input") ]]
    else
        cmp -s "$of/out" "$folder/$case/out"
    fi
}

is_answer() {
    local case=$1 of=$2
    [[ $(cat "$of/status") == $(cat "$folder/$case/status") ]] || return 1
    is_right_text "$case" "$of" || return 1
    [[ ! -s $of/err ]] || cmp -s "$of/err" "$folder/$case/err"
}

is_without_memory() { [[ $(cat "$1/status") == 5 && ! -s $1/out && $(cat "$1/err") == FAULT,MEMORY ]]; }

is_without_device() { [[ $(cat "$1/status") == 6 && $(head -n 1 "$1/err") == FAULT,DEVICE ]]; }

is_beginning() {
    local case=$1 of=$2
    cmp -s -n "$(stat -c %s "$of/out")" "$of/out" "$folder/$case/out"
}

# Whether a run ended as it has to, where calls of a kind were refused.
is_right() {
    local case=$1 of=$2 kind=$3 how=$4
    case $kind-$how in
        memory-error) is_without_memory "$of" || is_answer "$case" "$of" ;;
        input-error | input-interrupted) is_without_device "$of" && [[ ! -s $of/out ]] ;;
        output-error | output-interrupted) is_without_device "$of" && is_beginning "$case" "$of" ;;
        # (where the sentence is cut off, the rest is right all the same)
        errors-*) : >"$of/err" && is_answer "$case" "$of" ;;
        *) is_answer "$case" "$of" ;;
    esac
}

# One run of a case whose call number $4 of a kind is refused, and all that follow if $5 says so.
try() {
    local case=$1 kind=$2 how=$3 number=$4 which=$5 to
    to=$(mktemp -d "$folder/run.XXXXXXXX")
    local variables=(REFUSE="$kind" REFUSE_HOW="$how" REFUSE_AT="$number")
    [[ $which == alone ]] || variables+=(REFUSE_ALL=1)
    run "$case" "$to" "${variables[@]}"
    if ! is_right "$case" "$to" "$kind" "$how"; then
        echo "$case: $kind, call $number ($how, $which): status $(cat "$to/status"), on standard error:" >&2
        head -n 3 "$to/err" >&2
        exit 255
    fi
    rm -rf "$to"
}
export -f run is_right_text is_answer is_without_memory is_without_device is_beginning is_right try

# All runs of a case, whose calls of each kind are so many: words for `try`, a line for each run.
all_runs() {
    local case=$1 kind number
    shift
    for kind in memory input output errors; do
        for ((number = 1; number <= $1; number++)); do
            echo "$case $kind error $number alone"
            echo "$case $kind error $number onward"
            [[ $kind != memory ]] || continue
            echo "$case $kind short $number alone"
            echo "$case $kind interrupted $number alone"
        done
        shift
        [[ $kind == memory ]] || echo "$case $kind short 1 onward"
    done
}

# The most calls of each kind that a case was seen to make without refusals. Its answer is that of the last run.
count_calls() {
    local case=$1 look
    for ((look = 0; look < looks; look++)); do
        run "$case" "$folder/$case"
        cat "$folder/$case/counts"
    done | awk '{ for (k = 1; k <= NF; k++) if ($k > most[k]) most[k] = $k } END { print most[1] + 0, most[2] + 0, most[3] + 0, most[4] + 0 }'
}

# A case: its name, the file that is read, the words.
add_case() {
    local name=$1 input=$2
    shift 2
    names+=("$name")
    mkdir "$folder/$name"
    cp "$input" "$folder/$name/input"
    printf '%s\n' "$@" >"$folder/$name/words"
}

try_case() {
    local case=$1 counts runs
    read -r -a counts < <(count_calls "$case")
    all_runs "$case" "${counts[@]}" >"$folder/runs"
    xargs -P "$(nproc)" -L 1 bash -c 'try "$@"' try <"$folder/runs" || { echo "$sum passed, 1 failed"; exit 1; }
    runs=$(wc -l <"$folder/runs")
    sum=$((sum + runs))
    echo "$case: ${counts[0]} allocations, ${counts[1]} reads, ${counts[2]} writes, ${counts[3]} on standard error; $runs runs"
}

town=$here/small_town.toml
printf 'J,0,1,D,3041\nS,0,96,,\n' >"$folder/dial"
printf 'J,0,1,D,3045\n' >"$folder/row"
printf 'C,7,3041,5551234,R\n' >"$folder/call"
sed 's/"555 CITY COUNTY"/"555 CITY STATE"/' "$town" >"$folder/plan"

add_case dial_tone "$folder/dial" replay
add_case trouble_card "$here/trouble.csv" replay --plan "$town"
add_case call_inside "$here/inside_call.csv" replay
add_case live_call "$folder/call" live
add_case live_calls "$here/live_calls.csv" live --dial 2 --completing 2
add_case refused_plan "$folder/dial" replay --plan "$folder/plan"
add_case refused_row "$folder/row" replay
add_case audit "$here/inside_call.out" audit
add_case walk "$here/meeting.csv" walk --markers XX
add_case drawing "$here/trouble.out" draw --plan "$town"
add_case drawn_text "$here/trouble.out" draw --plan "$town" --text
add_case page "$here/trouble.out" page --plan "$town"

for name in "${names[@]}"; do try_case "$name"; done
echo "each run has its answer or the right fault"
echo "$sum passed, 0 failed"
