#!/usr/bin/env bash
# Bytes of input a second of the program `netlines` and of two plain Rust programs of the same job, the second one tuned.
# Usage: bench/lines.sh [CPU]: with CPU, such as x86-64-v3, all are built for that processor.
set -euo pipefail
cd "$(dirname "$0")/.."
cpu=${1:-}
source bench/common.sh
source bench/common_lines.sh

rounds=40
sinks=(null pipe)
build_lines
race "200,000 frames of 64 bytes" whole 200000 64
race "20,000 frames of 1,500 bytes" whole 20000 1500
for version in 4 6; do
    for together in 1 1000; do
        race "IPv$version, fragments of 64 bytes, $together together" cut "$version" 50000 64 "$together"
        race "IPv$version, fragments of 1448 bytes, $together together" cut "$version" 5000 1448 "$together"
    done
done

rounds=10
sinks=(null)
for version in 4 6; do
    race "IPv$version, fragments of 64 bytes, 200,000 together" cut "$version" 200000 64 200000
done
