#!/usr/bin/env bash
# What scripts/progress and scripts/gate make of what rt says, with a made-up rt: good steps are told in a line, the prover's text is
# shown where something fails and nowhere else, and the gate passes only where everything did.
set -uo pipefail
cd "$(dirname "$0")/.." || exit
. scripts/counting

work=$(mktemp -d)
trap 'rm -rf "$work"' EXIT
mkdir -p "$work"/{bin,tests,crates/upper/must-fail}
cp -r scripts "$work"
cd "$work" || exit
PATH=$work/bin:$PATH
printf 'lower:\nupper: lower io\nupper_c staticlib: upper\n' >crates.txt
touch crates/upper/must-fail/{one,two}.edit
echo 'echo "2 passed, 0 failed"' >tests/suite.sh

# The made-up rt says what is in the file `says`, and ends as `ends` has it
cat >bin/rt <<'END'
#!/bin/sh
cat "${0%/*}/../says"
eval "$(cat "${0%/*}/../ends")"
END
chmod +x bin/rt

# says ENDS: the rt to come prints standard input, and ends so.
says() {
    cat >says
    echo "$1" >ends
}

# run COMMAND..: a command, with what it says in `said` and its status in `status`.
run() {
    timeout 60 "$@" >said 2>&1
    status=$?
}

# expect NAME STATUS TEXT..: the last command's status; lines that it must have said, and after a word `not` one that it must not.
expect() {
    local name=$1 wanted=$2 text ok=true
    shift 2
    [ "$status" -eq "$wanted" ] || ok=false
    while [ $# -gt 0 ]; do
        text=$1
        shift
        if [ "$text" = not ]; then
            ! grep -qxF -e "$1" said || ok=false
            shift
        else
            grep -qxF -e "$text" said || ok=false
        fi
    done
    check "$name" "$ok" || sed "s/^/  exit $status: /" said
}

# What rt ci says where all is well
good() {
    cat <<'END'
== lower
note: of lower
rt: lower proved
== upper: its tests
note: of a test of upper
rt: upper: its tests are proved
== upper
note: of upper
rt: upper proved
rt: upper: trying its must-fail edits (2)
rt: upper_c is kept: an earlier run on this machine proved the same files over the same libraries
rt: upper: 1 of its 2 must-fail edits were tried by an earlier run on this machine, and nothing that they stand on has changed
rt: must-fail upper/one.edit: refused, as it must be: note: src/lib.rt:1:1: it is not proved that what the function ensures holds
rt: must-fail upper/two.edit: refused, as it must be
rt: upper ran, and wrote what its file stdout has
rt: upper ran (built by Rattle's own compiler), and wrote what its file stdout has
tests: 1
test result: ok. 1 passed; 0 failed; 0 ignored; 0 filtered out
rt: upper: its tests passed
rt: ok; handles allowed: none; must-fail edits: 2 refused; done in this run: 3 of the 4 proofs (of crates and of their tests) and 1 of the 2 must-fail edits
5 passed, 0 failed
END
}
steps=('crate 1 of 3: lower proved' 'crate 2 of 3: upper proved' 'edits of upper, 2 of 2' 'program upper ran' "program upper ran, built by Rattle's own compiler"
    'tests of upper passed')

good | says 'exit 0'
run scripts/progress all rt ci
expect 'good steps' 0 'all: 3 crates to prove, 2 edits to refuse' "${steps[@]}" not 'note: of lower' not 'note: of upper' not 'note: of a test of upper' not 'tests: 1'
check 'what rt says of it all is shown' grep -q '^rt: ok; handles allowed: none; must-fail edits: 2 refused; ' said
run scripts/gate
expect 'a good gate' 0 "${steps[@]}" '8 passed, 0 failed' not 'note: of upper'
check 'the last line' test "$(tail -n 1 said)" = '8 passed, 0 failed'
for part in proofs edits programs suite all; do
    check "the minutes of $part" grep -Eqx "  $part +[0-9]+\.[0-9]" said
done

good | sed -e '0,/^rt: upper proved/s/^rt: upper proved/rt: upper NOT PROVED/' -e '/: refused\|upper ran\|trying\|were tried\|^test\|upper: its tests passed/d' \
    -e 's/rt: upper_c is kept.*/rt: upper_c NOT PROVED: its library upper failed/' -e 's/rt: ok.*/rt: FAILED: upper upper_c/' -e 's/^5.*/1 passed, 2 failed/' | says 'exit 1'
run scripts/progress all rt ci
expect 'a crate that is not proved' 1 "${steps[0]}" 'note: of upper' 'rt: upper NOT PROVED' 'rt: upper_c NOT PROVED: its library upper failed' 'rt: FAILED: upper upper_c' \
    not 'note: of lower' not 'note: of a test of upper'
run scripts/gate
expect 'its gate' 1 'note: of upper' '3 passed, 2 failed'

# What rt says of files that are not in rt fmt's layout
good | sed -e 's/^rt: lower proved/src\/lib.rt is not in the layout\nrt: run rt fmt in the crate'"'"'s folder\nrt: lower NOT PROVED/' \
    -e '/^== upper/,/^tests/d' -e '/^test\|^rt: upper/d' -e 's/rt: ok.*/rt: FAILED: lower/' -e 's/^5.*/0 passed, 1 failed/' | says 'exit 1'
run scripts/gate
expect 'a file that is not laid out' 1 'src/lib.rt is not in the layout' 'rt: lower NOT PROVED' '2 passed, 1 failed'

good | sed -e 's/one.edit: refused.*/one.edit: NOT REFUSED: the crate is still proved with this edit/' \
    -e 's/rt: ok.*/rt: FAILED: upper\/one.edit/' -e 's/^5.*/4 passed, 1 failed/' | says 'exit 1'
run scripts/progress all rt ci
expect 'an edit that is not refused' 1 'rt: must-fail upper/one.edit: NOT REFUSED: the crate is still proved with this edit' "${steps[@]}"
run scripts/gate
expect 'its gate' 1 '6 passed, 1 failed'

# An edit that cannot be applied: rt ci passes, and the gate does not
good | sed -e 's/one.edit: refused.*/one.edit: BAD EDIT: it did not reach the prover\nits first line/' \
    -e 's/edits: 2 refused/edits: 1 refused, 1 bad/' -e 's/^5.*/4 passed, 0 failed/' | says 'exit 0'
run scripts/progress all rt ci
expect 'a bad edit' 0 'rt: must-fail upper/one.edit: BAD EDIT: it did not reach the prover' 'its first line' "${steps[@]}"
run scripts/gate
expect 'its gate' 1 'rt: must-fail upper/one.edit: BAD EDIT: it did not reach the prover' 'gate: of 2 must-fail edits 1 were refused, and 1 are bad' '6 passed, 1 failed'
good | sed -e 's/edits: 2 refused/edits: 1 refused, 1 of them only by a limit, 2 bad/' | says 'exit 0'
run scripts/gate
expect 'bad edits beside one that was refused by a limit' 1 'gate: of 2 must-fail edits 1 were refused, and 2 are bad' '7 passed, 1 failed'
good | sed -e 's/edits: 2 refused/edits: 2 refused, 1 of them only by a limit/' | says 'exit 0'
run scripts/gate
expect 'one that was refused by a limit' 0 '8 passed, 0 failed'
for words in '' ' must-fail edits: 1 refused;'; do
    good | sed -e "s/ must-fail edits: 2 refused;/$words/" | says 'exit 0'
    run scripts/gate
    expect "edits that are not told of: $words" 1 '7 passed, 1 failed'
done

# An rt that stops on its way, or ends badly after a good last line
for ends in 'kill -9 $$' 'exit 2'; do
    good | head -n 8 | says "$ends"
    run scripts/gate
    expect "rt stops: $ends" 1 "${steps[0]}" 'note: of upper' '2 passed, 1 failed'
    good | says "$ends"
    run scripts/gate
    expect "rt ends badly: $ends" 1 '7 passed, 1 failed'
done
: | says 'exit 0'
run scripts/gate
expect 'rt says nothing' 1 '2 passed, 1 failed'

# Suites that do not pass
good | says 'exit 0'
for suite in 'echo why; echo "1 passed, 1 failed"; exit 1' 'echo why; echo "1 passed, 1 failed"' 'echo why' 'echo why; exit 1'; do
    echo "$suite" >tests/suite.sh
    run scripts/gate
    expect "a suite that does: $suite" 1 why
    check 'its gate fails' grep -qx '[0-9]* passed, 1 failed' <(tail -n 1 said)
done

# What the gate takes for its suites of what rt ci has made: the program, and the library where nothing was built before
echo 'echo "2 passed, 0 failed"' >tests/suite.sh
mkdir -p crates/reader_export_c crates/ouiread
printf '#!/bin/sh\nmkdir -p out\nfor last; do :; done\necho library >"$last"\n' >bin/rattle
chmod +x bin/rattle
printf '%s\n' 'mkdir -p crates/ouiread/out' 'echo program >crates/ouiread/out/ouiread' >made
good | says '. ./made; exit 0'
run scripts/gate
expect 'a gate where nothing was built before' 0 '8 passed, 0 failed'
check 'the program is taken' test "$(cat target/bin/ouiread)" = program
check 'the library is taken' test "$(cat target/staticlib/libreader_export.a)" = library
rm -r target
run scripts/gate
expect 'a gate where something was' 0 '8 passed, 0 failed'
check 'the program is taken there too' test "$(cat target/bin/ouiread)" = program
check 'the library is not' test ! -e target/staticlib
rm -r crates/*/out target
good | sed -e 's/^rt: ok.*/rt: FAILED: upper/' -e 's/^5.*/4 passed, 1 failed/' | says '. ./made; exit 1'
run scripts/gate
check 'nothing is taken where rt ci fails' test ! -e target

# A library, and the program, one crate after the other
cat <<'END' | says 'exit 0'
only=0 proved=0
rt: chose --jobs 2 for lower
note: of lower
logic=proved functions=3
rt: upper: begins with what a check kept in /elsewhere
rt: chose --jobs 2 for upper
note: of upper
logic=proved functions=3
END
mkdir -p crates/upper
cd crates/upper || exit
run ../../scripts/progress it rt lib
cd ../..
mv crates/upper/said .
expect 'a library' 0 'it: 2 crates to prove' 'crate 1 of 2: lower proved' 'crate 2 of 2: upper proved' not 'note: of lower' not 'note: of upper'
head -n 3 says >half
echo 'logic=not-proved functions=3' | cat half - <(echo 'rt: the library lower did not build, so nothing above it was checked') | says 'exit 1'
cd crates/upper || exit
run ../../scripts/progress it rt lib
cd ../..
mv crates/upper/said .
expect 'a library that is not proved' 1 'note: of lower' 'logic=not-proved functions=3' 'rt: the library lower did not build, so nothing above it was checked' not 'crate 1 of 2: lower proved'

# Other commands, and a terminal
run scripts/progress it sh -c 'echo words'
expect 'a good command' 0 'it ..' not words
run scripts/progress it sh -c 'echo words; exit 7'
expect 'a command that fails' 7 words
run scripts/progress it "$work/none"
expect 'no command' 1
good | says 'sleep 1; exit 0'
TERM=xterm run script -qec 'stty cols 40; scripts/progress all rt ci' /dev/null
expect 'a terminal' 0
# Its lines end in CR LF here
check 'no step has a line of its own' test "$(grep -cF -e "${steps[0]}" -e 'note: of upper' said)" -eq 0
check 'one line is rewritten' grep -q $'\rrunning the programs, [0-9]* s so far\e\\[K\r' said
check 'it is cleared' grep -q $'^.*\r\e\\[Kall: 5 passed, 0 failed, [0-9]* s\r$' said

tell
