#!/usr/bin/env bash
# Counts how the instructions of the engine's report, and of its plan around badges 0 and 1 in 8 parts, grow with the badges and the ticks of a day, in
# millions: figures that repeat, as a table for docs/GROWTH.md. Each count is of one call in a new process, with the check of the words.
# Needs cargo, valgrind, and crates/ward/out/libward.a, which `rt lib` in crates/ward writes. Its arguments are the days, random and persistent if there are
# none.
set -euo pipefail
source "$(dirname "${BASH_SOURCE[0]}")/counting.sh"
[ $# -gt 0 ] || set -- random persistent

declare -A calls=([report]=engine [plan]=plan8)
echo "| Day | Call | n | T 12 | T 24 | T 48 | T 96 |"
echo "|---|---|---|---|---|---|---|"
for day in "$@"; do
    for call in report plan; do
        for badges in 8 16 32 64 128; do
            printf '| %s | %s | %s |' "$day" "$call" "$badges"
            for ticks in 12 24 48 96; do
                number=$(count "$day" "$badges" "$ticks" "${calls[$call]}")
                awk -v count="$number" 'BEGIN { printf " %.3f |", count / 1e6 }'
            done
            printf '\n'
        done
    done
done
