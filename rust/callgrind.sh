#!/usr/bin/env bash
# Instructions per operation of each row of `bench`, on each side, as callgrind counts them: the difference of
# two runs with another number of operations, so that what is done once cancels out.
# Usage: rust/callgrind.sh [TABLE [SEED]]
# (table 1: slice pool, 2: arena layer, the default, 3: joins, 4: never, 5: lists)
set -euo pipefail
cd "$(dirname "$0")"
cargo build --offline --release --quiet --bin bench
table=${1:-2}
seed=${2:-20261115}
names=(ours Rust C)
[ "$table" != 1 ] || names=(ours Rust) # the reference in C has no slice pool
[ "$table" != 4 ] || names=(ours C)    # the original has no such sweep
[ "$table" != 5 ] || names=(ours each Rust C)
only=()
# The original has no join. Setting the tables back before each is not counted; every step of a repeated string
# instruction, as memset uses it, is.
if [ "$table" = 3 ]; then
    names=(ours C)
    only=(--toggle-collect=sirqobal_join_tables --toggle-collect=reference_join_tables)
fi

# Sets `line` to what the program prints, `count` to the instructions.
run() {
    line=$(valgrind --tool=callgrind --callgrind-out-file=/dev/null "${only[@]}" target/release/bench --seed "$seed" \
        --table "$table" --row "$1" --side "$2" --times "$3" 2>"$errors")
    count=$(sed -n 's/.*Collected : \([0-9]*\).*/\1/p' "$errors")
}

# Prints the instructions per operation of a row on a side.
per_operation() {
    run "$1" "$2" 10
    local first=${line%%|*} before=$count
    run "$1" "$2" $((2 * first))
    echo $(((count - before) / (${line%%|*} - first)))
}

errors=$(mktemp)
trap 'rm -f "$errors"' EXIT
echo "| case | n |$(printf ' %s instructions/op |' "${names[@]}")$(printf ' ours/%s |' "${names[@]:1}")"
echo "|---|---:|$(printf -- '---:|%.0s' "${names[@]}" "${names[@]:1}")"
for ((row = 1; ; row++)); do
    line=$(target/release/bench --seed "$seed" --table "$table" --row "$row" --side 1 --times 1)
    [ -n "$line" ] || break
    IFS='|' read -r _ name n <<<"$line"
    counts=()
    for ((side = 1; side <= ${#names[@]}; side++)); do counts+=("$(per_operation "$row" "$side")"); done
    ratios=$(awk 'BEGIN { for (i = 2; i < ARGC; i++) printf " %.2f |", ARGV[1] / ARGV[i] }' "${counts[@]}")
    echo "| $name | $n |$(printf ' %s |' "${counts[@]}")$ratios"
done
