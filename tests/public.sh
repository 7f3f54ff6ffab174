#!/usr/bin/env bash
# The public functions of the libraries: none asks anything of its callers (`requires`), and docs/CLAIMS.md lists just these. A
# program's functions are called by nobody else, so programs are left out.
set -uo pipefail
cd "$(dirname "$0")/.."
. scripts/counting

found=$(mktemp)
listed=$(mktemp)
trap 'rm -f "$found" "$listed"' EXIT

# functions CRATE: the names of its public functions in order, and `requires FILE NAME` for each that has one.
functions() {
    awk '
        /^ *pub (extern "C" )?fn / { name = $0; sub(/^ *pub (extern "C" )?fn /, "", name); sub(/[^a-z0-9_].*/, "", name); print name; open = 1 }
        open && /^ *requires/ { print "requires " FILENAME " " name }
        /^ *\{/ || /\{ *$/ { if ($0 !~ /ensures|requires/) open = 0 }
    ' "crates/$1"/src/*.rt
}

for crate in $(ls crates); do
    [ -e "crates/$crate/src/main.rt" ] && continue
    names=$(functions "$crate")
    asking=$(printf '%s\n' "$names" | grep '^requires ' || true)
    if [ -n "$asking" ]; then
        printf 'public: a public function asks something of its callers: %s\n' "${asking#requires }"
        failed=$((failed + 1))
    else
        passed=$((passed + 1))
    fi
    names=$(printf '%s\n' "$names" | grep -v '^requires ' | sort | paste -sd' ')
    [ -n "$names" ] && printf '%s: %s\n' "$crate" "$names" >>"$found"
done

sed -n '/^<!-- public functions -->$/,/^<!-- end -->$/p' docs/CLAIMS.md | grep '^    ' | sed 's/^    //' >"$listed"
if diff "$listed" "$found"; then
    passed=$((passed + 1))
else
    echo 'public: docs/CLAIMS.md (<) does not list the public functions of the libraries (>)'
    failed=$((failed + 1))
fi

tell
