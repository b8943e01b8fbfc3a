#!/usr/bin/env bash
# Counts places of older forms in src/, for docs/DESIGN-PASS.md: its points, by name. With the word 'list' and a name it prints the places.
# At the top of a checkout: bash tools/old-forms.sh [list NAME]
set -euo pipefail
cd "$(dirname "${BASH_SOURCE[0]}")/.."
sources=(crates/*/src)

# The lines that a pattern finds.
lines() { grep -rnE -- "$1" "${sources[@]}" || true; }

# Functions of six parameters and more.
many_parameters() {
    perl -0777 -ne 'while (/fn (\w+)(?:<[^(]*>)?\s*\(([^)]*)\)/g) { my ($n, $p) = ($1, $2); my @p = grep { /\S/ } split /,/, $p; print "$ARGV $n\n" if @p >= 6 }' \
        $(find "${sources[@]}" -name '*.rt')
}

places() {
    case $1 in
        1-enums) lines '^\s*(pub(\(crate\))? )?enum ' ;;
        1-flags) lines '^\s*(pub(\(crate\))? )?[a-z_]+: bool,$|damage: usize' ;;
        1-codes) lines '^\s*//.*(stands for too many|[Nn]umber 0:|0 where it is not|that is none|where there (is|was) none|where it has none|capacity where none|if never)' ;;
        2-sizes) lines 'fn \w*(two|four|eight|some)\w*[(<]' ;;
        2-refusals) lines '-> (Written|logs::Written|trace::Written|groups::Written)\b|written: \w+::Written' ;;
        3-while) lines "^\s*('\w+: )?(while|loop)\b" ;;
        3-ranges) lines "^\s*('\w+: )?for \w+ in .*\.\." ;;
        4-bytes) lines '\b(widen|wide)\(|% 256\) as u8|/ 256' ;;
        4-helpers) lines 'fn (widen|wide|single|added|greater|capped|row_count|word_bytes|from_little_endian|spell|digit|delivered|part_end|window|complement|smallest_bit|without_smallest|byte_at|with_digit|with_field|with_word)\(' ;;
        5-facts) lines '(requires|ensures).*(length rows.now ≡ row_words|LentDay|Review |SpanOfDay|length line.old ≡ line_room|c < 96|m \* size ≤ length|Roomy count|Writable n ticks|64 ≡ length rows|result.len ≤ 4096)' ;;
        5-parameters) many_parameters ;;
        6-lengths) lines '^\s*(pub(\(crate\))? )?len: usize' ;;
        6-arrays) lines 'let mut (lows|highs|packs|memory|orders|members|circles|large) = \[' ;;
        7-steps) lines 'enum (Family|Rule)\b' ;;
    esac
}

if [ "${1:-}" = list ]; then
    places "$2"
    exit
fi
for name in 1-enums 1-flags 1-codes 2-sizes 2-refusals 3-while 3-ranges 4-bytes 4-helpers 5-facts 5-parameters 6-lengths 6-arrays 7-steps; do
    printf '%-14s %3d\n' "$name" "$(places "$name" | wc -l)"
done
