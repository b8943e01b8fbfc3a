#!/usr/bin/env bash
# Looks which names the archive for C needs from outside: memcpy and memset at most, which a host without a C library can write itself.
# Needs nm, and crates/ward/out/libward.a, which `rt lib` in crates/ward writes. Says '1 passed, 0 failed' where it needs no other.
set -euo pipefail
cd "$(dirname "${BASH_SOURCE[0]}")/.."
others=$(nm -u crates/ward/out/libward.a | awk '$1 == "U" && $2 != "memcpy" && $2 != "memset" { print $2 }')
if [ -z "$others" ]; then
    echo "1 passed, 0 failed"
else
    echo "libward.a needs from outside: $others"
    echo "0 passed, 1 failed"
    exit 1
fi
