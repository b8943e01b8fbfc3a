#!/usr/bin/env bash
# The checks from the other side of the C interface. Builds the two static libraries, of the calls for C and of the probes. Then runs the tests in
# Rust, every call against a second implementation, with the examples in its documentation, and the tool at a prompt as a program; then the examples in
# C, a million random calls between guard pages, the measurement of the stack, the names that the archive needs from outside, and, where the listing
# program is built, its runs from a pipe.
# Needs rt, cargo, and a cc with the address sanitizer, on x86-64, and nothing from a registry. A static library is built over what `rt check` and `rt lib`
# kept, and proved first where they kept nothing. Its status is 0 where all of them pass; the first that fails ends it.
set -euo pipefail
cd "$(dirname "${BASH_SOURCE[0]}")/.."
for library in ward probes; do
    (cd "crates/$library" && rt lib)
done
(cd rust/ward && cargo test --offline --release)
bash tests/c-example.sh
bash tests/guard-pages.sh
bash tests/stack-use.sh
bash tests/names-from-outside.sh
if [ -x crates/listing/out/listing ]; then
    bash tests/listing-from-a-pipe.sh
fi
