#!/usr/bin/env bash
# Nanoseconds a segment of putting TCP streams together by our table of connections and buffers, and by plain Rust, and their
# ratio: 1000 connections at once, of 64 segments of 1,024 bytes each, 64 MB a turn, in order, each second one before the one that it
# follows, each eighth one after the next seven, and each twice. Usage: bench/streams.sh [CPU]: both programs are built for CPU, else
# for x86-64-v2.
set -euo pipefail
cd "$(dirname "$0")/.."
cpu=${1:-x86-64-v2}
source bench/common.sh

# Beside its data each connection has a segment with SYN and one with FIN.
race_by_name benchmarks plain_streams 66000 stream streams_ordered streams_swapped streams_late
race_by_name benchmarks plain_streams 130000 stream streams_repeated
