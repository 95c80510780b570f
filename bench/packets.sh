#!/usr/bin/env bash
# Seconds in which `packets_cli summary`, `flows`, `show` and `json` read captures of UDP datagrams, long ones, short ones and each of
# another conversation, and verify their checksums, and how many times as long `tcpdump -n -r` takes, which verifies none. Standard
# output is /dev/null.
# Usage: bench/packets.sh [CPU]: with CPU, such as x86-64-v3, ours is built for that processor.
set -euo pipefail
cd "$(dirname "$0")/.."
cpu=${1:-}
source bench/common.sh
command -v tcpdump >/dev/null || fail "tcpdump is not on the path"
programs=(summary flows show json tcpdump)

# run PROGRAM CAPTURE
run() {
    if [[ $1 == tcpdump ]]; then
        tcpdump -n -r "$2" 2>/dev/null
    else
        "$work/packets_cli" "$1" "$2"
    fi
}

# measure CAPTURE PACKETS LABEL: all in turns, to /dev/null, the best of all rounds of each.
measure() {
    local round program began
    best=()
    [[ $(run show "$1" | wc -l) == "$2" ]] || fail "not each packet of $3 has a line"
    for ((round = 0; round < rounds; round++)); do
        for program in "${programs[@]}"; do
            began=${EPOCHREALTIME//./}
            run "$program" "$1" >/dev/null
            keep_best "$program" $((${EPOCHREALTIME//./} - began))
        done
    done
    for program in "${programs[@]}"; do
        printf '%-42s %-8s %8s %10s\n' "$3" "$program" "$(quotient "${best[$program]}" 1000000)" \
            "$(quotient "${best[tcpdump]}" "${best[$program]}")"
    done
}

build_plain make_captures
"$work/make_captures" 2000000 64 udp >"$work/short.pcap"
build_proved packets_cli summary - <"$work/short.pcap"

printf '%-42s %-8s %8s %10s\n' capture program seconds "to tcpdump"
measure "$work/short.pcap" 2000000 "2,000,000 packets of 64 bytes"
rm "$work/short.pcap"
"$work/make_captures" 1000000 64 conversations >"$work/many.pcap"
measure "$work/many.pcap" 1000000 "1,000,000 packets, each a conversation"
rm "$work/many.pcap"
"$work/make_captures" 660000 1500 udp >"$work/long.pcap"
measure "$work/long.pcap" 660000 "1 GB: 660,000 packets of 1,500 bytes"
