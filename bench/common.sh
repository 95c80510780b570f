# What the benchmarks share. The one that sources it stands at the repository's top and has set
# `cpu`, empty or a processor such as x86-64-v3.
export LC_ALL=C
rounds=5
work=$(mktemp -d)
trap 'rm -rf "$work"' EXIT

fail() {
    echo "${0##*/}: $*" >&2
    exit 1
}

# build_plain NAME [FLAG...]: the Rust program bench/NAME.rs, or that of the folder bench/NAME, as $work/NAME.
build_plain() {
    local source=bench/$1.rs
    [[ -d bench/$1 ]] && source=bench/$1/main.rs
    command -v rustc >/dev/null || fail "rustc is not on the path"
    rustc --edition 2024 -O ${cpu:+-C target-cpu="$cpu"} "${@:2}" -o "$work/$1" "$source" ||
        fail "$source was not built"
}

# build_proved NAME [ARGUMENT...]: the program of crates/NAME, proved, as $work/NAME; it runs once, with the
# arguments and what stands on standard input.
build_proved() {
    command -v rt >/dev/null || fail "rt is not on the path"
    [[ -f crates/$1/src/main.rt ]] || fail "there is no program crates/$1"
    echo "proving and building $1" >&2
    (cd "crates/$1" && rt run ${cpu:+--cpu "$cpu"} -- "${@:2}") >/dev/null 2>"$work/$1.log" || {
        tail -n 20 "$work/$1.log" >&2
        fail "crates/$1 was not proved and built"
    }
    cp "crates/$1/out/$1" "$work/$1"
}

# keep_best PROGRAM TIME: the least of each program stands in `best`.
declare -A best
keep_best() {
    if [[ -z ${best[$1]:-} ]] || (($2 < best[$1])); then
        best[$1]=$2
    fi
}

# per_second AMOUNT MICROSECONDS
per_second() {
    echo $(($1 * 1000000 / $2))
}

# quotient A B: with three digits after the point.
quotient() {
    printf '%d.%03d' $(($1 / $2)) $(($1 * 1000 / $2 % 1000))
}

# race_by_name OURS PLAIN ITEMS HEADING NAME...: nanoseconds an item of our program and of the plain one of the
# same jobs, a name a line, and their ratio. Of a name both print a
# sum, which has to agree, and with --timed also the nanoseconds of their fastest turn over so many items. They
# run in turns, the best of all rounds of each.
race_by_name() {
    local ours=$1 plain=$2 items=$3 round program name sum nanoseconds names
    local -A sums
    names=("${@:5}")
    build_plain "$plain" -C codegen-units=1
    build_proved "$ours" "${names[@]}" </dev/null
    cmp <("$work/$ours" "${names[@]}") <("$work/$plain" "${names[@]}") >&2 || fail "the sums differ"
    printf '%-28s %10s %10s %7s\n' "$4" ours plain ratio
    for name in "${names[@]}"; do
        best=()
        sums=()
        for ((round = 0; round < rounds; round++)); do
            for program in "$ours" "$plain"; do
                read -r _ sum nanoseconds < <("$work/$program" --timed "$name")
                [[ ${sums[x]:=$sum} == "$sum" ]] || fail "the sums of $name differ"
                keep_best "$program" "$nanoseconds"
            done
        done
        printf '%-28s %10s %10s %7s\n' "$name" "$(quotient "${best[$ours]}" "$items")" \
            "$(quotient "${best[$plain]}" "$items")" "$(quotient "${best[$plain]}" "${best[$ours]}")"
    done
}
