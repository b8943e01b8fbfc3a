#!/usr/bin/env bash
# Measures the stack that each call through the C interface uses, on days and logs of the largest size; none may use more than ward.h says.
# Needs cc, and crates/ward/out/libward.a, which `rt lib` in crates/ward writes. Says '1 passed, 0 failed' where each does.
set -euo pipefail
cd "$(dirname "${BASH_SOURCE[0]}")/.."
scratch=$(mktemp -d)
trap 'rm -rf "$scratch"' EXIT
# bound at its start, so that no call has the dynamic linker look for memcpy on the stack that is measured
cc -std=c11 -O1 -Wall -Wextra -Wpedantic -Werror -Wl,-z,now -Iinclude tests/stack-use.c crates/ward/out/libward.a -o "$scratch/stack-use"
if "$scratch/stack-use"; then
    echo "1 passed, 0 failed"
else
    echo "0 passed, 1 failed"
    exit 1
fi
