#!/usr/bin/env bash
# A million random calls through the C interface, with guard pages around every lent buffer.
# Needs cc, and crates/ward/out/libward.a, which `rt lib` in crates/ward writes. Says '1 passed, 0 failed' where no call reached outside.
set -euo pipefail
cd "$(dirname "${BASH_SOURCE[0]}")/.."
scratch=$(mktemp -d)
trap 'rm -rf "$scratch"' EXIT
cc -std=c11 -O1 -Wall -Wextra -Wpedantic -Werror -Iinclude tests/guard-pages.c crates/ward/out/libward.a -o "$scratch/guard-pages"
if "$scratch/guard-pages" "${1:-1000000}"; then
    echo "1 passed, 0 failed"
else
    echo "0 passed, 1 failed"
    exit 1
fi
