#!/usr/bin/env bash
# The Rust crate over the proved library, its documentation, and a few thousand random lists of calls, compared in one process with the
# second reader's reading of them. (`make fuzz` compares a million.)
set -uo pipefail
cd "$(dirname "$0")/.."
scripts/library || exit 1
if ! RUSTDOCFLAGS='-D warnings' cargo doc --offline --quiet --no-deps --manifest-path rust/Cargo.toml -p ouinet-reader; then
    echo '0 passed, 1 failed'
    exit 1
fi
exec scripts/cargo-test -p ouinet-reader -p oui-fetch -p fuzz-calls -- --nocapture
