#!/usr/bin/env bash
# Nanoseconds an item of our library calls and of plain Rust of the same jobs, one benchmark a line, and
# their ratio. Usage: bench/calls.sh [CPU]: both programs are built for CPU, else for x86-64-v2.
set -euo pipefail
cd "$(dirname "$0")/.."
cpu=${1:-x86-64-v2}
source bench/common.sh

rounds=20
# The names of library calls stand ahead of those of reassembly, which bench/reassembly.sh races.
mapfile -t names < <(sed '/^ascending$/,$d' crates/benchmarks/args)
# A turn is a block of 20 times 1000 packets.
race_by_name benchmarks plain_calls 20000 benchmark "${names[@]}"
