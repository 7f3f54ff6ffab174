#!/usr/bin/env bash
# docs/crates.svg is what scripts/crates-picture draws from crates.txt, with every crate in it once; another crates.txt gives another
# picture.
set -uo pipefail
cd "$(dirname "$0")/.." || exit
. scripts/counting

work=$(mktemp -d)
trap 'rm -rf "$work"' EXIT

# draw CRATES.TXT: the picture of it, in $work/drawn.
draw() {
    scripts/crates-picture "$1" >"$work/drawn"
}

# once NAME: whether the picture has a crate of this name, and one only.
once() {
    [ "$(grep -c "class=\"m\".*>$1</text>" "$work/drawn")" -eq 1 ]
}

# another: whether the last picture is another than that of the project.
another() {
    ! cmp -s "$work/drawn" docs/crates.svg
}

check 'the picture is drawn' draw crates.txt
check 'docs/crates.svg is what scripts/crates-picture draws: make picture draws it anew' cmp "$work/drawn" docs/crates.svg
names=$(sed -e 's/#.*//' -ne 's/^ *\([A-Za-z0-9_]*\)[^:]*:.*/\1/p' crates.txt)
for name in $names; do
    check "$name stands in the picture once" once "$name"
done

last=$(tail -n 1 <<<"$names")
{ cat crates.txt; echo "one_more: $last"; } >"$work/more"
check 'with a crate more' draw "$work/more"
check 'there is the crate' once one_more
check 'it is another picture' another
cp "$work/drawn" "$work/standing"
{ cat crates.txt; echo 'one_more:'; } >"$work/alone"
check 'with a crate that stands on nothing' draw "$work/alone"
check 'its line is gone' test "$(grep -c '"line"' "$work/drawn")" -lt "$(grep -c '"line"' "$work/standing")"
grep -v "^$last:" crates.txt >"$work/fewer"
check 'with a crate fewer' draw "$work/fewer"
check 'that is another picture too' another

tell
