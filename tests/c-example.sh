#!/usr/bin/env bash
# Builds the examples in C with the address sanitizer, runs them on the example logs and on D1's, and compares what they print.
# Needs cc, and crates/ward/out/libward.a, which `rt lib` in crates/ward writes. Says 'N passed, M failed'.
set -euo pipefail
cd "$(dirname "${BASH_SOURCE[0]}")/.."
scratch=$(mktemp -d)
trap 'rm -rf "$scratch"' EXIT
for example in groups receivers trace; do
    cc -std=c11 -Wall -Wextra -Wpedantic -Werror -fsanitize=address,undefined -Iinclude "examples/$example.c" crates/ward/out/libward.a \
        -o "$scratch/$example"
done
passed=0
failed=0

# Compares what an example prints, for its arguments, with the text on descriptor 3. It ends with status 1 where a call is refused.
try() {
    "$scratch/$1" "${@:2}" > "$scratch/printed" || [ $? -eq 1 ]
    if cmp -s "$scratch/printed" /dev/fd/3; then
        passed=$((passed + 1))
    else
        failed=$((failed + 1))
        echo "$*: not the text expected"
    fi
}

# Without badge 1, badges 0 and 2 are a group that the list of all groups does not have; without badge 3, badge 4 is in none.
try groups examples/ward.log 1 3 3<<'TEXT'
order 2 ticks 0 to 1 badges 0 1 2
order 1 ticks 0 to 2 badges 0 1 2
order 1 ticks 1 to 3 badges 3 4
without badges 1 and 3
order 1 ticks 0 to 1 badges 0 2
score 2 ticks 0 to 0 badges 0 1 2
score 2 ticks 1 to 1 badges 0 1 2
score 0 ticks 2 to 3 badges 0 1 2 3 4
TEXT

# D1 and query {0} in one part: "score 0, all four badges"; and four parts: "h 4 gets 14"
try groups crates/listing/stdin 0 1 3<<'TEXT'
order 2 ticks 0 to 1 badges 0 1 2
order 1 ticks 0 to 2 badges 2 3
without badges 1 and 3
order 1 ticks 0 to 1 badges 0 2
score 0 ticks 0 to 2 badges 0 1 2 3
TEXT
try groups crates/listing/stdin 2 4 3<<'TEXT'
order 2 ticks 0 to 1 badges 0 1 2
order 1 ticks 0 to 2 badges 2 3
without badges 1 and 3
order 1 ticks 0 to 1 badges 0 2
refused 14 at 0
TEXT

# Two teams of three that never met, in two ticks: a group each. Without badges 1 and 3 two pairs are left, 0 and 2, and 4 and 5. The plan around
# badge 0 shows the core, which is of both teams.
printf 'BH\6\2CT\0\1\0\1CT\0\2\0\1CT\1\2\0\1CT\3\4\0\1CT\3\5\0\1CT\4\5\0\1ED\6\0\0\0' > "$scratch/teams.log"
try groups "$scratch/teams.log" 0 1 3<<'TEXT'
order 2 ticks 0 to 1 badges 0 1 2
order 2 ticks 0 to 1 badges 3 4 5
without badges 1 and 3
order 1 ticks 0 to 1 badges 0 2
order 1 ticks 0 to 1 badges 4 5
score 2 ticks 0 to 1 badges 0 1 2 3 4 5
TEXT

# 65 badges in two ticks: badges 0, 63 and 64 are together in both, and badges 62 and 63 in the second. The sets of a report have 16 bytes then. A
# plan around badge 64, and around one that the day does not have, badge 65.
printf 'BH\101\2CT\77\100\0\1CT\0\100\0\1CT\77\0\0\1CT\76\77\1\1ED\4\0\0\0' > "$scratch/wide.log"
try groups "$scratch/wide.log" 64 2 3<<'TEXT'
order 2 ticks 0 to 1 badges 0 63 64
without badges 1 and 3
order 2 ticks 0 to 1 badges 0 63 64
score 2 ticks 0 to 0 badges 0 63 64
score 2 ticks 1 to 1 badges 0 63 64
TEXT
try groups "$scratch/wide.log" 65 2 3<<'TEXT'
order 2 ticks 0 to 1 badges 0 63 64
without badges 1 and 3
order 2 ticks 0 to 1 badges 0 63 64
refused 13 at 0
TEXT

# 128 badges, the most that there can be: the last and the first; and 129.
printf 'BH\200\1CT\177\0\0\0ED\1\0\0\0' > "$scratch/widest.log"
try groups "$scratch/widest.log" 127 1 3<<'TEXT'
order 1 ticks 0 to 0 badges 0 127
without badges 1 and 3
order 1 ticks 0 to 0 badges 0 127
score 1 ticks 0 to 0 badges 0 127
TEXT
printf 'BH\201\1CT\177\0\0\0ED\1\0\0\0' > "$scratch/too-wide.log"
try groups "$scratch/too-wide.log" 0 1 3<<'TEXT'
refused 3 at 0
TEXT

# A file that is no log: refused by its mark.
try groups README.md 0 1 3<<'TEXT'
refused 2 at 0
TEXT

# Two receivers: what one of them heard makes the groups of examples/ward.log.
try receivers 1 examples/ward-east.log examples/ward-west.log 3<<'TEXT'
order 2 ticks 0 to 1 badges 0 1 2
order 1 ticks 0 to 2 badges 0 1 2
order 1 ticks 1 to 3 badges 3 4
TEXT

# What both heard. The first says twice that 1 and 2 met in tick 0, the second does not: it does not count.
try receivers 2 examples/ward-east.log examples/ward-west.log 3<<'TEXT'
order 2 ticks 1 to 1 badges 0 1 2
order 1 ticks 1 to 2 badges 0 1 2
order 1 ticks 2 to 3 badges 3 4
TEXT

# Two receivers of 65 badges, of which the second heard badges 63 and 64 alone.
printf 'BH\101\2CT\77\100\0\1ED\1\0\0\0' > "$scratch/wide-west.log"
try receivers 2 "$scratch/wide.log" "$scratch/wide-west.log" 3<<'TEXT'
order 1 ticks 0 to 1 badges 63 64
TEXT

# A quorum of three of two logs; a second that is no log, after the 40 bytes of the first; and D1's as the second, of another shift.
try receivers 3 examples/ward-east.log examples/ward-west.log 3<<'TEXT'
refused 18 at 0
TEXT
try receivers 1 examples/ward-east.log README.md 3<<'TEXT'
refused 2 at 40
TEXT
try receivers 1 examples/ward-east.log crates/listing/stdin 3<<'TEXT'
refused 19 at 0
TEXT

# In tick 2 badges 0 and 1 are in contact, and badges 1 and 2: badge 1 passes on after that tick alone, when nobody is in contact with it. From tick 0
# on badge 2 reaches badges 0 and 1 at once.
try trace examples/ward.log 0 2 3<<'TEXT'
badge 0 from tick 2
badge 1 in tick 2 from badge 0
never reached: badges 2 3 4
TEXT
try trace examples/ward.log 2 0 3<<'TEXT'
badge 2 from tick 0
badge 0 in tick 0 from badge 2
badge 1 in tick 0 from badge 2
never reached: badges 3 4
TEXT

# D1 from badge 3: everybody is reached, badges 0 and 1 in tick 1.
try trace crates/listing/stdin 3 0 3<<'TEXT'
badge 3 from tick 0
badge 2 in tick 0 from badge 3
badge 0 in tick 1 from badge 2
badge 1 in tick 1 from badge 2
TEXT

# 65 badges from badge 62, in the second tick; badge 64 is never reached, nor badge 0.
try trace "$scratch/wide.log" 62 0 3<<'TEXT'
badge 62 from tick 0
badge 63 in tick 1 from badge 62
never reached: badges 0 1 2 3 4 5 6 7 8 9 10 11 12 13 14 15 16 17 18 19 20 21 22 23 24 25 26 27 28 29 30 31 32 33 34 35 36 37 38 39 40 41 42 43 44 45 46 47 48 49 50 51 52 53 54 55 56 57 58 59 60 61 64
TEXT

# From the last tick on, nobody; then a badge and a tick that the day does not have, and a file that is no log.
try trace examples/ward.log 0 3 3<<'TEXT'
badge 0 from tick 3
never reached: badges 1 2 3 4
TEXT
try trace examples/ward.log 5 0 3<<'TEXT'
refused 22 at 0
TEXT
try trace examples/ward.log 0 4 3<<'TEXT'
refused 22 at 0
TEXT
try trace README.md 0 0 3<<'TEXT'
refused 2 at 0
TEXT

echo "$passed passed, $failed failed"
[ "$failed" -eq 0 ]
