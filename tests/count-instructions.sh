#!/usr/bin/env bash
# Counts the instructions of one call on each day of the benchmark, in millions: figures that repeat. One table has the plain report, made by the
# engine and by each baseline, and 'filtered', the engine's report of the groups that last 4 ticks or more, are of order 2 or more and have 3 members
# or more: it should take no more instructions than the plain one, and how many fewer it takes, one by one, stands last but one; and 'half', the
# engine's report with the lower half of the badges under review, whose ratio to the plain one stands last. All other calls review all badges. The
# second table has the plan around badges 0 and 1 in 8 and in 32 parts, made by the engine and, as 'bitplan', by the baseline with bitsets. The third
# has the trace from badge 0 at tick 0, made by the engine and, as 'bittrace', by the baseline with sets in words, and 'checked', the engine's trace
# from badge n, which is refused directly after the check of the words; what the engine's trace itself takes, their difference, stands last, divided
# by the number of sets of the day, badges times ticks: instructions a set, and no millions. The fourth has the engine's core numbers of ticks 0 to 3,
# write, and read and tidy of the day's log. The fifth has the join of the logs of 2 and of 4 receivers at quorum 2, each with each run of the day's
# log with probability 3/4, and before it the reads of the same logs, one after the other. In these two there is a '-' where a day has no log, having
# more than 8,000 runs. The last has the engine's report, plan in 8 parts and trace on a day of 128 badges and 96 ticks that is made as the named one
# is, and the ratio of each to that on the day of 64 badges. Each count is of one call, or of the reads of 2 or 4 logs, in a new process. Needs cargo,
# valgrind, and crates/ward/out/libward.a, which `rt lib` in crates/ward writes. Its arguments are the days, all six if there are none; there is one
# more, 'circles', of which every core falls apart.
set -euo pipefail
source "$(dirname "${BASH_SOURCE[0]}")/counting.sh"
[ $# -gt 0 ] || set -- sparse busy dense random persistent empty

# A count in millions, and a ratio; '-' where there is no count.
millions() { awk -v count="$1" 'BEGIN { printf "%12s", count == 0 ? "-" : sprintf("%.3f", count / 1e6) }'; }
ratio() { awk -v a="$1" -v b="$2" 'BEGIN { printf "%s", b == 0 ? "-" : sprintf("%.2f", a / b) }'; }

declare -A counts
reports=(engine lists algorithm2 bitsets filtered half)
printf '%-20s' "report, millions"
printf '%12s' "${reports[@]}"
printf '%16s%14s%17s%13s\n' "engine/bitsets" "lists/engine" "engine-filtered" "half/engine"
for day in "$@"; do
    printf '%-20s' "$day"
    for call in "${reports[@]}"; do
        counts[$call]=$(count "$day" "$call")
        millions "${counts[$call]}"
    done
    printf '%16s%14s%17s%13s\n' "$(ratio "${counts[engine]}" "${counts[bitsets]}")" "$(ratio "${counts[lists]}" "${counts[engine]}")" \
        "$((counts[engine] - counts[filtered]))" "$(ratio "${counts[half]}" "${counts[engine]}")"
done

printf '\n%-20s' "plan, millions"
for parts in 8 32; do
    printf '%12s%12s%16s' "plan$parts" "bitplan$parts" "engine/bitsets"
done
printf '\n'
for day in "$@"; do
    printf '%-20s' "$day"
    for parts in 8 32; do
        plan=$(count "$day" "plan$parts")
        bitplan=$(count "$day" "bitplan$parts")
        millions "$plan"
        millions "$bitplan"
        printf '%16s' "$(ratio "$plan" "$bitplan")"
    done
    printf '\n'
done

traces=(trace bittrace checked)
sets=$((64 * 96)) # of each of the days
printf '\n%-20s' "trace, millions"
printf '%12s' "${traces[@]}"
printf '%16s%24s\n' "engine/bitsets" "(trace-checked)/sets"
for day in "$@"; do
    printf '%-20s' "$day"
    for call in "${traces[@]}"; do
        counts[$call]=$(count "$day" "$call")
        millions "${counts[$call]}"
    done
    printf '%16s%24s\n' "$(ratio "${counts[trace]}" "${counts[bittrace]}")" "$(ratio "$((counts[trace] - counts[checked]))" "$sets")"
done

others=(numbers write read tidy)
printf '\n%-20s' "others, millions"
printf '%12s' "${others[@]}"
printf '\n'
for day in "$@"; do
    printf '%-20s' "$day"
    for call in "${others[@]}"; do
        number=$(count "$day" "$call")
        millions "$number"
    done
    printf '\n'
done

printf '\n%-20s' "joins, millions"
for receivers in 2 4; do
    printf '%12s%12s%14s' "reads$receivers" "join$receivers" "join/reads"
done
printf '\n'
for day in "$@"; do
    printf '%-20s' "$day"
    for receivers in 2 4; do
        reads=$(count "$day" "reads$receivers")
        join=$(count "$day" "join$receivers")
        millions "$reads"
        millions "$join"
        printf '%14s' "$(ratio "$join" "$reads")"
    done
    printf '\n'
done

wide=(engine plan8 trace)
printf '\n%-20s' "128 badges, millions"
for call in "${wide[@]}"; do
    printf '%12s%18s' "$call" "128/64 badges"
done
printf '\n'
for day in "$@"; do
    printf '%-20s' "$day"
    for call in "${wide[@]}"; do
        narrow=$(count "$day" "$call")
        number=$(count "$day" 128 96 "$call")
        millions "$number"
        printf '%18s' "$(ratio "$number" "$narrow")"
    done
    printf '\n'
done
