#!/usr/bin/env bash
# The table of definitions in docs/CLAIMS.md is what scripts/believed works out from the statements of the claims: every file that they name,
# directly or by way of others, with the lines that count.
set -uo pipefail
cd "$(dirname "$0")/.." || exit
. scripts/counting

work=$(mktemp -d)
trap 'rm -rf "$work"' EXIT

# listed: the table as docs/CLAIMS.md has it.
listed() {
    sed -n '/^<!-- believed -->$/,/^<!-- end -->$/p' docs/CLAIMS.md | grep '^|'
}

# total: how many lines the table gives in all of what the copy of the crates has.
total() {
    scripts/believed "$work" | sed -n 's/^| \*\*all\*\* | | \*\*\([0-9]*\)\*\* |$/\1/p'
}

check 'the table is worked out' scripts/believed >"$work/table"
listed >"$work/listed"
check 'docs/CLAIMS.md has the table that scripts/believed works out' diff "$work/listed" "$work/table"

cp -r crates "$work/crates"
before=$(total)
printf -- '\n-- a comment\nuse Rattle.std.specs.Prelude.{length}\n' >>"$work/crates/stream/specs/Limits.antt"
check 'comments, imports and empty lines do not count' test "$(total)" = "$before"
printf 'abbrev pub one : ℕ\none = 1\n' >>"$work/crates/stream/specs/Limits.antt"
check 'a definition does' test "$(total)" = $((before + 2))
printf 'use Rattle.stranger.specs.Thing.{thing}\n' >>"$work/crates/stream/specs/Limits.antt"
mkdir -p "$work/crates/stranger/specs"
printf 'abbrev pub thing : ℕ\nthing = 1\n' >"$work/crates/stranger/specs/Thing.antt"
check 'a crate that stands in no part of the table is an error' eval '! scripts/believed "$work" >/dev/null 2>"$work/error"'
check 'which names it' grep -q ' stranger$' "$work/error"

tell
