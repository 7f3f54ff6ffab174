#!/bin/sh
# Times the proved library beside the second reader on one stream, every signature verified and its end checked: SHA-512 of each block and
# SHA-256 of the whole body on both sides. Run it from the top of the repository; it needs rt and cargo.
set -e
scripts/library
scripts/cargo-build -p bench-reader
mkdir -p target/bench
scripts/progress 'timing the reader' sh -c 'rust/target/release/bench-reader >target/bench/reader.out'
cat target/bench/reader.out
