#!/usr/bin/env bash
# What hostile input costs, beside plain input of the same length. Of `netlines_cli`, over lines of bench/worst_lines.py: nanoseconds
# of processor time a byte, and how many times as much as of plain lines. Of `packets_cli`, over captures of bench/worst_captures.py:
# the same, and the most kilobytes that it held. Rows with a bound are judged, and the status is 1 where one is above it; all others
# only report what is. Usage: bench/worst.sh [NAME...], where NAME is one that these two list. The programs are those in
# crates/NAME/out, of the folder CRATES where it is set; one that is missing is proved and built.
set -euo pipefail
cd "$(dirname "$0")/.."
cpu=
source bench/common.sh

rounds=9

# find_program NAME: its path is in `program`.
find_program() {
    program=${CRATES:-crates}/$1/out/$1
    if [[ ! -x $program ]]; then
        build_proved "$1" </dev/null
        program=$work/$1
    fi
}

# nanoseconds FILE: of processor time a byte, in thousandths, of the best round.
nanoseconds() {
    local round user system
    local TIMEFORMAT='%3U %3S'
    best=()
    for ((round = 0; round < rounds; round++)); do
        read -r user system < <({ time "$program" <"$1" >/dev/null; } 2>&1)
        keep_best it $((10#${user/./} + 10#${system/./}))
    done
    echo $((best[it] * 1000000000 / $(stat -c %s "$1")))
}

measure_lines() {
    local name worst plain
    find_program netlines_cli
    printf '%-45s %10s %10s %7s\n' lines "ns a byte" plain times
    for name in "$@"; do
        bench/worst_lines.py "$name" >"$work/worst"
        bench/worst_lines.py "$name" plain >"$work/plain"
        worst=$(nanoseconds "$work/worst")
        plain=$(nanoseconds "$work/plain")
        printf '%-45s %10s %10s %7s\n' "$name" "$(quotient "$worst" 1000)" "$(quotient "$plain" 1000)" "$(quotient "$worst" "$plain")"
    done
}

# run_capture FILE WORD...: `nanoseconds` has those of processor time a byte, in thousandths, of the best of three rounds, and
# `kilobytes` the most that it held.
run_capture() {
    local round status held taken line
    best=()
    kilobytes=0
    line=$(printf '%s\t' /dev/null /dev/null "$work/error" 600 "$program" "${@:2}")$1
    for ((round = 0; round < 3; round++)); do
        read -r status held taken < <("$work/run_each" <<<"$line")
        [[ $status == 0 ]] || fail "${*:2}: status $status: $(<"$work/error")"
        keep_best it "$taken"
        if ((held > kilobytes)); then kilobytes=$held; fi
    done
    nanoseconds=$((best[it] * 1000000 / $(stat -c %s "$1")))
}

above=0
# measure_captures LINE...: each a name, words, and two bounds, with tabs between.
measure_captures() {
    local name words most_held most_times worst held verdict line
    find_program packets_cli
    program=$(realpath "$program")
    "${CC:-cc}" -O2 -o "$work/run_each" tools/run_each.c
    printf '\n%-41s %-16s %9s %9s %9s %8s %8s  %s\n' captures command "ns a byte" plain times KB "plain KB" judged
    for line in "$@"; do
        IFS=$'\t' read -r name words most_held most_times <<<"$line"
        bench/worst_captures.py "$name" "$work/worst" "$work/plain"
        # shellcheck disable=SC2086
        run_capture "$work/worst" $words
        worst=$nanoseconds held=$kilobytes
        # shellcheck disable=SC2086
        run_capture "$work/plain" $words
        verdict=no
        if [[ $most_held != - ]]; then
            verdict="within $most_held KB, $most_times times"
            if ((held > most_held || worst > most_times * nanoseconds)); then
                verdict="ABOVE $most_held KB or $most_times times"
                above=$((above + 1))
            fi
        fi
        printf '%-41s %-16s %9s %9s %9s %8s %8s  %s\n' "$name" "$words" "$(quotient "$worst" 1000)" \
            "$(quotient "$nanoseconds" 1000)" "$(quotient "$worst" "$nanoseconds")" "$held" "$kilobytes" "$verdict"
    done
}

mapfile -t lines < <(bench/worst_lines.py)
mapfile -t captures < <(bench/worst_captures.py)
if [[ $# -gt 0 ]]; then
    wanted=() wanted_captures=()
    for name in "$@"; do
        known=
        for line in "${lines[@]}"; do if [[ $line == "$name" ]]; then wanted+=("$line") known=1; fi; done
        for line in "${captures[@]}"; do if [[ ${line%%$'\t'*} == "$name" ]]; then wanted_captures+=("$line") known=1; fi; done
        [[ $known ]] || fail "there is no input $name"
    done
    lines=("${wanted[@]}") captures=("${wanted_captures[@]}")
fi
if [[ ${#lines[@]} -gt 0 ]]; then measure_lines "${lines[@]}"; fi
if [[ ${#captures[@]} -gt 0 ]]; then
    measure_captures "${captures[@]}"
    echo "judged: rows with 'within' or 'ABOVE' alone, of which $above are above; what others hold and take grows with the input"
fi
((above == 0))
