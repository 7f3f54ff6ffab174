#!/usr/bin/env bash
# Our program and the independent second one on generated streams, honest and broken, cut in many ways, and on malformed, missing and
# unreadable files. Events and bodies must be equal, the places of wrong texts among them, of which there are 4,500 at least; 250 accepted heads
# have a repeated field, 200 have more bytes or fields than before request #108, 350 are refused because another URI was asked for, which is
# told in one line, 1,300 streams or more have an end of the show that is told or refused, and 1,000 accepted heads are those of part answers; a
# file that is no good is named in one line. The exit status of ours is 0 whatever comes.
set -uo pipefail
cd "$(dirname "$0")/.."
scripts/program || exit 1
scripts/cargo-build || exit 1
rust/target/release/compare target/bin/ouiread rust/target/release/ouiread-second --no-status-in-a \
    --seed 1 --count 11341 --groups example,rules,bounds,inputs,repeated,asked,longer,ends,parts,text,damage,mixed \
    --least-places 4500 --least-repeated 250 --least-asked 350 --least-longer 200 --least-ends 1300 --least-parts 1000
