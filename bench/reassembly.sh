#!/usr/bin/env bash
# Nanoseconds a fragment of putting messages together by our buffer and pool and by plain Rust, and their ratio:
# one message by a buffer, an order of its fragments a line; 100,000 of them by a pool; and 8000 under names that
# collide by the pool's hasher of a fixed seed, so many at once. `random`: the names are hashed by random keys. Then bytes of
# input a second of the program `netlines`, and of plain Rust programs, of one message after another in each order of its fragments.
# Usage: bench/reassembly.sh [CPU]: both programs are built for CPU, else for x86-64-v2.
set -euo pipefail
cd "$(dirname "$0")/.."
cpu=${1:-x86-64-v2}
source bench/common.sh
source bench/common_lines.sh

# A turn is a message of 8192 fragments.
race_by_name benchmarks plain_reassembly 8192 order ascending descending even_first shuffled

# A turn is 100,000 messages of two fragments.
race_by_name benchmarks plain_reassembly 200000 pool interleaved interleaved_random

# A turn is 8000 messages of two fragments.
colliding=()
for names in 1000 2000 4000 8000; do
    colliding+=("colliding_$names" "colliding_${names}_random")
done
race_by_name benchmarks plain_reassembly 16000 "colliding names" "${colliding[@]}"

# A message of 8,188 fragments through the whole program `netlines`, fifty times in each order.
rounds=10
build_lines
orders=(ascending descending "every second one first" shuffled)
for order in "${!orders[@]}"; do
    race "IPv4, 8,188 fragments, ${orders[$order]}" ordered "$order" 50
done
