# For the scripts that count instructions: builds the benchmark, and counts one call of it. To be read by bash from another script, with `source`.
# Needs cargo, valgrind, and crates/ward/out/libward.a, which `rt lib` in crates/ward writes.
cd "$(dirname "${BASH_SOURCE[0]}")/../rust/ward"
cargo build --quiet --offline --release --target-dir target --example bench
scratch=$(mktemp -d)
trap 'rm -rf "$scratch"' EXIT

# The instructions of one call in a new process, which has these arguments of the benchmark; 0 where it is not made. Buffers are not cleared between
# calls, and no clearing is counted.
count() {
    if ! valgrind --tool=callgrind --callgrind-out-file="$scratch/out" --toggle-collect=counted target/release/examples/bench "$@" > "$scratch/said" 2>&1; then
        cat "$scratch/said" >&2
        exit 1
    fi
    awk '/^(summary|totals):/ { count = $2 } END { print count + 0 }' "$scratch/out"
}
