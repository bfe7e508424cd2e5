#!/usr/bin/env bash
# Compares unproved runs (bin/crossbar5 in a fresh clone, by `rt try`) with the proved program:
# tried_and_proved.sh [PROGRAM]. Each unproved run takes a minute or two; two are made at a time.
#
# Standard output and exit status have to be the same, and standard error too but for the one line which says that
# the run is not proved. Live calls may differ from run to run, so their records are audited in place of compared.
set -euo pipefail

here=$(cd "$(dirname "$(readlink -f "${BASH_SOURCE[0]}")")" && pwd)
program=${1:-$here/../crates/crossbar5_program/out/crossbar5_program}
[[ $program == /* ]] || program=$PWD/$program
folder=$(mktemp -d)
trap 'rm -rf "$folder"' EXIT
failures=0

# What each row is for | its exit status | its words | its standard input. Files are those of the clone.
rows=(
    'a replay|0||J,0,1,D,3041\nS,0,128,,\n'
    'a replay with a plan|0|replay --plan examples/small_town.toml|J,0,1,D,3041\nS,0,128,,\n'
    'a refused plan|3|replay --plan=examples/trouble.csv|'
    'a plan that is not there|6|replay --plan ../missing.toml|'
    'refused traffic|4|replay|J,0,1,D\n'
    'refused words|2|live --dial x|'
    'an audit of a wrong text|7|audit|0,1,0,D,3041,-,NOPATH,-,-,-\n'
    'a walk|0|walk --short|J,0,1,D,3041\nS,0,128,,\n'
    'a walk as JSON|0|walk --json|J,0,1,D,3041\nS,0,128,,\n'
    'an office as it stands|0|look|J,0,1,D,3041\nS,0,22,,\n'
    'the same as JSON|0|look --json|J,0,1,D,3041\nS,0,22,,\n'
    'two forms|2|look --json --svg|'
    'a drawing|0|draw --text|0,1,0,D,3041,-,DIALTONE,1,3041-0-417,-\n'
    'a drawing of wrong records|7|draw|0,1,0,D,3041,-,NOPATH,-,-,-\n'
    'help|0|--help|'
    'help on a command|0|draw --help|'
    'a live call|0|live|C,7,3041,5551234,R\n'
)

# Runs a program on a row, and keeps what it writes.
run() {
    local kept=$1 program=$2 words=$3 input=$4 status=0
    # shellcheck disable=SC2086
    (cd "$folder/clone" && printf '%b' "$input" | exec -a crossbar5 "$program" $words) >"$kept.out" 2>"$kept.err" || status=$?
    echo "$status" >"$kept.status"
}

# Compares what the two wrote for a row.
compare() {
    local name=$1 status=$2 words=$3 tried=$folder/$4.tried proved=$folder/$4.proved
    sed -i '/^crossbar5: the proved program is not built/d' "$tried.err"
    if [[ $words == live ]]; then
        if "$program" audit <"$tried.out" >"$tried.audit"; then cp "$proved.out" "$tried.out"; fi
    fi
    if [[ $(cat "$tried.status") == "$status" && $(cat "$proved.status") == "$status" ]] &&
        cmp -s "$tried.out" "$proved.out" && cmp -s "$tried.err" "$proved.err"; then
        echo "$name: the same, status $status"
    else
        echo "$name: differs"
        tail -n 5 "$tried".{status,out,err} "$proved".{status,out,err}
        failures=$((failures + 1))
    fi
}

git clone -q "$here/.." "$folder/clone"
for at in "${!rows[@]}"; do
    IFS='|' read -r _ _ words input <<<"${rows[at]}"
    run "$folder/$at.proved" "$program" "$words" "$input"
    while (($(jobs -rp | wc -l) >= 2)); do wait -n; done
    run "$folder/$at.tried" "$folder/clone/bin/crossbar5" "$words" "$input" &
done
wait
for at in "${!rows[@]}"; do
    IFS='|' read -r name status words _ <<<"${rows[at]}"
    compare "$name" "$status" "$words" "$at"
done

exit $((failures > 0))
