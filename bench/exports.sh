#!/usr/bin/env bash
# Nanoseconds a call of the exports from C, beside like calls in Rattle (benchmarks of calls.sh and reassembly.sh: there all
# that is returned is read, payloads are of 1 to 64 bytes, and 100,000 messages are reassembled at once), and from Python,
# beside dpkt and scapy (apt-get install python3-dpkt python3-scapy).
# Usage: bench/exports.sh [FOLDER], where FOLDER has the libraries already (tools/build_libraries).
set -euo pipefail
cd "$(dirname "$0")/.."
cpu=
source bench/common.sh

# in_rattle PROGRAM ITEMS NAME...: nanoseconds an item of a program's benchmarks.
in_rattle() {
    local program=$1 items=$2 name round nanoseconds
    build_proved "$program" "${@:3}" </dev/null
    for name in "${@:3}"; do
        best=()
        for ((round = 0; round < rounds; round++)); do
            read -r _ _ nanoseconds < <("$work/$program" --timed "$name")
            keep_best "$name" "$nanoseconds"
        done
        printf '%-44s %8s\n' "Rattle: $name" "$(quotient "${best[$name]}" "$items")"
    done
}

libraries=${1:-$work/libraries}
[ $# = 0 ] && tools/build_libraries "$libraries"
libraries=$(realpath "$libraries")
cc -std=gnu11 -O2 -Wall -Wextra -Iinclude -Ic/tests bench/exports.c "$libraries/libetherparse.a" -o "$work/exports"
"$work/exports"
in_rattle benchmarks 20000 built_udp_ipv4 sliced_udp_ipv4
in_rattle benchmarks 200000 interleaved
ETHERPARSE_LIB_DIR=$libraries PYTHONDONTWRITEBYTECODE=1 PYTHONPATH=python /usr/bin/python3 bench/exports.py
