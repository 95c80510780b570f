#!/usr/bin/env bash
# Nanoseconds a frame over the frames of made lines, in turns: of libetherparse, from C++, and of libtins (Debian's libtins-dev,
# C++), which read the frames in memory, and put their IPv4 fragments together too; and of the program `netlines_cli`, which does its whole
# job, hex in and out. Usage: bench/peers.sh [FOLDER [CPU]]: FOLDER has the static libraries already (tools/build_libraries), or is
# empty; with CPU, such as x86-64-v3, `netlines_cli` is built for that processor.
set -euo pipefail
cd "$(dirname "$0")/.."
cpu=${2:-}
source bench/common.sh

rounds=20
ours=netlines_cli
peers=(etherparse libtins)

# A count or time that a peer reports: frames, messages, nanoseconds.
reported() {
    "$work/peer_$1" "$2" <"$work/lines.in" | cut -d ' ' -f "$3"
}

# race LABEL ARGUMENT...: over the lines that make_lines writes for these arguments.
race() {
    local round began lines messages peer job
    "$work/make_lines" "${@:2}" >"$work/lines.in"
    lines=$(wc -l <"$work/lines.in")
    messages=$("$work/$ours" <"$work/lines.in" | grep -c '^message 17 good ' || true)
    for peer in "${peers[@]}"; do
        [[ $(reported "$peer" reassemble 2) == "$messages" ]] || fail "$peer has other messages: $1"
    done
    best=()
    for ((round = 0; round < rounds; round++)); do
        began=${EPOCHREALTIME//./}
        "$work/$ours" <"$work/lines.in" >/dev/null
        keep_best "$ours" $(((${EPOCHREALTIME//./} - began) * 1000))
        for peer in "${peers[@]}"; do
            for job in read reassemble; do
                keep_best "$peer $job" "$(reported "$peer" "$job" 3)"
            done
        done
    done
    printf '%-44s' "$1"
    for job in read reassemble; do
        printf ' %9d %9d %7s' $((${best[etherparse $job]} / lines)) $((${best[libtins $job]} / lines)) \
            "$(quotient "${best[libtins $job]}" "${best[etherparse $job]}")"
    done
    printf ' %9d\n' $((${best[$ours]} / lines))
}

build_plain make_lines
libraries=${1:-$work/libraries}
[[ -n ${1:-} ]] || tools/build_libraries "$libraries"
g++ -std=c++17 -O3 -Iinclude -o "$work/peer_etherparse" bench/peer_etherparse.cpp "$libraries/libetherparse.a"
g++ -std=c++17 -O3 -o "$work/peer_libtins" bench/peer_libtins.cpp -ltins || fail "libtins was not found: apt-get install libtins-dev"
build_proved "$ours" </dev/null

printf '%-44s %9s %9s %7s %9s %9s %7s %9s\n' "ns a frame" read libtins ratio together libtins ratio netlines
race "200,000 frames of 64 bytes" whole 200000 64
race "20,000 frames of 1,500 bytes" whole 20000 1500
for together in 1 1000; do
    race "IPv4, fragments of 64 bytes, $together together" cut 4 50000 64 "$together"
    race "IPv4, fragments of 1448 bytes, $together together" cut 4 5000 1448 "$together"
done
