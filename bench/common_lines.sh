# What benchmarks of the program `netlines` share: it beside two plain Rust programs of the same job, the second one tuned.
# The script that sources it has sourced common.sh.
ours=netlines_cli
plain=plain_lines
tuned=tuned_lines
sinks=(null)

to_null() {
    "$1" <"$2" >/dev/null
}

to_pipe() {
    "$1" <"$2" | cat >/dev/null
}

# The plain programs give what the worked rows expect. (One row is wrong on purpose.)
compare_rows() {
    local program input
    for program in "$plain" "$tuned"; do
        for input in crates/netlines_rows/data/*.in; do
            [[ $input == */wrong_on_purpose.in ]] && continue
            "$work/$program" <"$input" | cmp - "${input%.in}.out" >&2 || fail "the answers to $input are wrong"
        done
    done
}

# All write the same answers to the file.
compare() {
    local program
    for program in "$ours" "$plain" "$tuned"; do
        "$work/$program" <"$1" >"$work/$program.out" || fail "$program stopped on $2"
        cmp "$work/$ours.out" "$work/$program.out" >&2 || fail "the answers to $2 differ"
    done
    rm "$work"/*.out
}

# measure INPUT SINK LABEL: all in turns, the best of all rounds of each.
measure() {
    local round program began size
    best=()
    for ((round = 0; round < rounds; round++)); do
        for program in "$ours" "$plain" "$tuned"; do
            began=${EPOCHREALTIME//./}
            "to_$2" "$work/$program" "$1"
            keep_best "$program" $((${EPOCHREALTIME//./} - began))
        done
    done
    size=$(stat -c %s "$1")
    printf '%-44s %-5s %12d' "$3" "$2" "$(per_second "$size" "${best[$ours]}")"
    for program in "$plain" "$tuned"; do
        printf ' %12d %7s' "$(per_second "$size" "${best[$program]}")" "$(quotient "${best[$program]}" "${best[$ours]}")"
    done
    echo
}

# race LABEL ARGUMENT...: over the lines that make_lines writes for these arguments.
race() {
    local sink input=$work/lines.in
    "$work/make_lines" "${@:2}" >"$input"
    compare "$input" "$1"
    for sink in "${sinks[@]}"; do
        measure "$input" "$sink" "$1"
    done
    rm "$input"
}

# build_lines: the three programs and what makes their input. Their answers are compared, and the table's head is printed.
build_lines() {
    build_plain make_lines
    build_plain "$plain"
    # It chooses hex and sums at run time; the rest is for the processor that ours is for.
    build_plain "$tuned" -C lto=fat -C codegen-units=1 -C panic=abort -C target-cpu="${cpu:-x86-64-v2}"
    compare_rows
    build_proved "$ours" </dev/null
    compare bench/edges.in "bench/edges.in"
    printf '%-44s %-5s %12s %12s %7s %12s %7s\n' input to netlines plain ratio tuned ratio
}
