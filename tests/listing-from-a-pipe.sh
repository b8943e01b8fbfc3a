#!/usr/bin/env bash
# Feeds the listing program from a pipe, a few bytes at a time, and compares what it writes with the text that is expected of each input.
# Needs crates/listing/out/listing, which `rt run` in crates/listing builds, and `rt ci`. Says 'N passed, M failed'.
set -euo pipefail
cd "$(dirname "${BASH_SOURCE[0]}")/.."
program=crates/listing/out/listing
scratch=$(mktemp -d)
trap 'rm -rf "$scratch"' EXIT
passed=0
failed=0

# The bytes of a file, so many at a time, with a pause after each piece.
feed() {
    local file=$1 step=$2 at=0 size
    size=$(stat -c %s "$file")
    while [ "$at" -lt "$size" ]; do
        tail -c "+$((at + 1))" "$file" | head -c "$step" || true
        at=$((at + step))
        sleep 0.01
    done
}

# Compares what the program writes of a file that comes in pieces with the text expected.
try() {
    local file=$1 step=$2 expected=$3
    if feed "$file" "$step" | "$program" | cmp -s - "$expected"; then
        passed=$((passed + 1))
    else
        failed=$((failed + 1))
        echo "$file, $step bytes at a time: not the text expected"
    fi
}

for step in 1 3 7 34; do
    try crates/listing/stdin "$step" crates/listing/stdout
    try examples/ward.log "$step" examples/ward.txt
done

# Nothing at all; a log cut short; and D1's log with more bytes after it than the longest log has.
: > "$scratch/empty"
echo "refused 1 at 0" > "$scratch/empty.txt"
try "$scratch/empty" 1 "$scratch/empty.txt"
head -c 31 crates/listing/stdin > "$scratch/cut"
echo "refused 1 at 28" > "$scratch/cut.txt"
try "$scratch/cut" 5 "$scratch/cut.txt"
{
    cat crates/listing/stdin
    head -c 60000 /dev/zero
} > "$scratch/long"
echo "refused 7 at 34" > "$scratch/long.txt"
try "$scratch/long" 4096 "$scratch/long.txt"

# More than 64 badges: the program has 12,288 words, which are enough for 128 badges in 48 ticks, and for every day of up to 64 badges. A day that
# needs more is refused, and so is one of more than 128 badges. Badges 9 and 127 are in contact in tick 47; then badges 10 and 63 in tick 95.
printf 'BH\x80\x30CT\x7f\x09\x2f\x2fED\x01\x00\x00\x00' > "$scratch/wide"
printf 'badges 128 ticks 48 groups 1\norder 1 ticks 47 to 47 badges 9 127\n' > "$scratch/wide.txt"
try "$scratch/wide" 5 "$scratch/wide.txt"
printf 'BH\x80\x31CT\x7f\x09\x2f\x2fED\x01\x00\x00\x00' > "$scratch/wider"
echo "refused 8 at 0" > "$scratch/wider.txt"
try "$scratch/wider" 5 "$scratch/wider.txt"
printf 'BH\x41\x5fED\x00\x00\x00\x00' > "$scratch/longer"
try "$scratch/longer" 4 "$scratch/wider.txt"
printf 'BH\x81\x01ED\x00\x00\x00\x00' > "$scratch/too-wide"
echo "refused 3 at 0" > "$scratch/too-wide.txt"
try "$scratch/too-wide" 4 "$scratch/too-wide.txt"
printf 'BH\x40\x60CT\x3f\x0a\x5f\x5fED\x01\x00\x00\x00' > "$scratch/full"
printf 'badges 64 ticks 96 groups 1\norder 1 ticks 95 to 95 badges 10 63\n' > "$scratch/full.txt"
try "$scratch/full" 5 "$scratch/full.txt"

# 128 badges in 48 ticks, each in contact with all but three of the others from tick 10 on: one group, and the longest line that there is, 434 bytes.
# In a log of 7,936 contacts, 47,626 bytes.
log_of_one_group() {
    local u v record
    printf 'BH\x80\x30'
    for ((u = 0; u < 128; u++)); do
        for ((v = u + 2; v < 128; v++)); do
            ((v - u == 64 || v - u == 127)) && continue
            printf -v record 'CT\\x%x\\x%x\\x0a\\x2f' "$u" "$v"
            printf "$record"
        done
    done
    printf 'ED\x00\x1f\x00\x00'
}
log_of_one_group > "$scratch/line"
printf 'badges 128 ticks 48 groups 1\norder 124 ticks 10 to 47 badges%s\n' "$(printf ' %d' {0..127})" > "$scratch/line.txt"
try "$scratch/line" 4096 "$scratch/line.txt"

# A log of 64 badges and 96 ticks with so many contacts. Contact k, with s for k / 64, is of badge k mod 64 and the one whose number differs from that
# in the binary digit s mod 4 alone, in ticks s - 2 to s, as far as there are such.
log_by_digits() {
    local k s u record
    printf 'BH\x40\x60'
    for ((k = 0; k < $1; k++)); do
        s=$((k / 64))
        u=$((k % 64))
        printf -v record 'CT\\x%x\\x%x\\x%x\\x%x' "$u" "$((u ^ 1 << s % 4))" "$((s < 2 ? 0 : s - 2))" "$s"
        printf "$record"
    done
    printf -v record 'ED\\x%x\\x%x\\x0\\x0' "$(($1 % 256))" "$(($1 / 256))"
    printf "$record"
}

# The listing of that log with 5,888 contacts. Throughout a span from a first tick to a last, those contacts hold that end in the last or later and are
# there in the first: a badge's circle has all that differ from it in their digits alone.
listing_by_digits() {
    local first last s digits u difference badges
    echo "badges 64 ticks 96 groups 5040"
    for ((first = 0; first < 90; first++)); do
        for ((last = first; last < first + 3; last++)); do
            for ((digits = 0, s = last; s < first + 3; s++)); do
                digits=$((digits | 1 << s % 4))
            done
            for ((u = 0; u < 64; u++)); do
                ((u & digits)) && continue
                badges=""
                for ((difference = 0; difference < 16; difference++)); do
                    ((difference & ~digits)) || badges+=" $((u + difference))"
                done
                echo "order $((first + 3 - last)) ticks $first to $last badges$badges"
            done
        done
    done
}

# The program has room for 65,536 bytes of a report: 5,040 records, 65,530 bytes, are listed, and with one contact more there are 65,543.
log_by_digits 5888 > "$scratch/most"
listing_by_digits > "$scratch/most.txt"
try "$scratch/most" 4096 "$scratch/most.txt"
log_by_digits 5889 > "$scratch/more"
echo "refused 9 at 0" > "$scratch/more.txt"
try "$scratch/more" 4096 "$scratch/more.txt"

echo "$passed passed, $failed failed"
[ "$failed" -eq 0 ]
