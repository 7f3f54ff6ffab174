#!/usr/bin/env bash
# The Rust side's own tests: the second reader, the stream generator and the signer, against vectors and each other.
cd "$(dirname "$0")/.." && exec scripts/cargo-test
