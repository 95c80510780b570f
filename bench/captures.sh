#!/usr/bin/env bash
# Bytes of captures a second of the program `captures_cli lines` and of a plain Rust program of the same job.
# Usage: bench/captures.sh [CPU]: with CPU, such as x86-64-v3, both are built for that processor.
set -euo pipefail
cd "$(dirname "$0")/.."
cpu=${1:-}
source bench/common.sh

ours=captures_cli
plain=plain_captures

run_ours() {
    "$work/$ours" lines -
}

run_plain() {
    "$work/$plain"
}

# measure CAPTURE LABEL: both in turns, to /dev/null, the best of all rounds of each.
measure() {
    local round program began size
    best=()
    cmp <(run_ours <"$1") <(run_plain <"$1") >&2 || fail "the lines of $2 differ"
    for ((round = 0; round < rounds; round++)); do
        for program in ours plain; do
            began=${EPOCHREALTIME//./}
            "run_$program" <"$1" >/dev/null
            keep_best "$program" $((${EPOCHREALTIME//./} - began))
        done
    done
    size=$(stat -c %s "$1")
    printf '%-32s %12d %12d %7s\n' "$2" "$(per_second "$size" "${best[ours]}")" \
        "$(per_second "$size" "${best[plain]}")" "$(quotient "${best[plain]}" "${best[ours]}")"
}

build_plain make_captures
build_plain "$plain"
for kind in pcap pcapng sll; do
    "$work/make_captures" 2000000 64 "$kind" >"$work/short.$kind"
    "$work/make_captures" 200000 1500 "$kind" >"$work/long.$kind"
done
build_proved "$ours" lines - <"$work/long.pcap"

printf '%-32s %12s %12s %7s\n' capture captures_cli plain ratio
for kind in pcap pcapng sll; do
    measure "$work/short.$kind" "$kind, 2,000,000 of 64 bytes"
    measure "$work/long.$kind" "$kind, 200,000 of 1,500 bytes"
done
