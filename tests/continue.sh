#!/usr/bin/env bash
# Shows that are half fetched and gone on with, with real Ed25519: parts that oui-sign cuts out of a stream, the trial of README, all that oui-fetch
# does not go on with, and what it says of it. (tests/killed.sh kills it.)
set -uo pipefail
shopt -s lastpipe # so that a fetch at the end of a pipe can set its status
cd "$(dirname "$0")/.."
. scripts/counting
. scripts/fetching

# said_just STATUS WORDS: how the last fetch ended, and all that it said.
said_just() {
    [ "$status" -eq "$1" ] && [ "$(cat said)" = "oui-fetch: $2" ]
}

# ---- the trial, typed as README has it

head -c 3000000 /dev/urandom >show
oui-sign key my.key >ring
south=https://example.com/sky/south
oui-sign sign my.key show --uri $south >show.oui
typed=('oui-relay --stop-after 1000000 <show.oui | oui-fetch --ring ring --uri $south --continue -o half    # cut off'
    'oui-fetch --range-for half                              # says: Range: bytes=983040-'
    'oui-sign part show.oui --from 983040 | oui-relay | oui-fetch --ring ring --uri $south --continue -o half'
    'cmp show half && echo '"'the same bytes'")
at='83040 bytes before were verified; half has 983040 verified bytes (oui-fetch --range-for half)'
due=("oui-fetch: refused 11: the stream stops before its end; the 9$at" 'Range: bytes=983040-'
    'oui-fetch: closed: 2016960 bytes in 31 blocks, each verified: bytes 983040 to 2999999; half has all 3000000 bytes that the part answer '\
'gives the show; whether the show is complete was not checked: the end of a part answer, and that length, are not signed'
    'the same bytes')
statuses=(1 0 0 0)
for i in "${!typed[@]}"; do
    expect "README has: ${typed[i]}" grep -qxF "    ${typed[i]}" "$top/README.md"
    eval "${typed[i]}" >said 2>&1
    expect "the status of: ${typed[i]}" test $? -eq "${statuses[i]}"
    expect "what is said to: ${typed[i]}" test "$(cat said)" = "${due[i]}"
done
expect 'nothing is left beside it' test ! -e half.unfinished

# ---- parts, as oui-sign cuts them

oui-sign key key >ring
printf 'Hello world!' >show
sign key show -o whole.oui --block-size 5 --id me-1 --ts 1700000000
mapfile -t lines < <(LC_ALL=C sed '1,/^\r/d' whole.oui)
line() { printf '%s\n' "${lines[$1]}"; }
hash=NhX4DJ0pPtdAJof5SyLVjlKbjMeRb4+sf933+9WvTPd309eVp6AKFr9+fz+5Vh7puq5IDan+ehh2nnGIawPzFQ==

# part_is RANGE BODY WORDS..: whether the part with these words has this range, this body up to its trailer, and all else of the whole stream.
part_is() {
    local range=$1 body=$2
    shift 2
    oui-sign part whole.oui "$@" >part 2>said || return
    { LC_ALL=C sed '1s/.*/HTTP\/1.1 206 Partial Content\r/;/^\r/,$d' whole.oui
        printf 'Content-Range: bytes %s\r\nX-Ouinet-HTTP-Status: 200\r\n\r\n%s' "$range" "$body"
        LC_ALL=C sed '1,/^0;ouisig/d' whole.oui; } | cmp -s - part
}
first=$'5\r\nHello\r\n'
second=$'5;ouihash='$hash$'\r\n worl\r\n'
expect 'document 000'"'"'s part' part_is 5-11/12 "$second$(line 4)"$'\n'"$(line 5)"$'\n'"$(line 6)"$'\n' --from 5
expect 'from inside a block' part_is 5-11/12 "$second$(line 4)"$'\n'"$(line 5)"$'\n'"$(line 6)"$'\n' --from 9
expect 'one block' part_is 5-9/12 "${second}0${lines[4]:1}"$'\n' --from 6 --to 7
expect 'the first block' part_is 0-4/12 "${first}0${lines[2]:1}"$'\n' --from 0 --to 0
expect 'two blocks' part_is 0-9/12 "$first$(line 2)"$'\n'"$(line 3)"$'\n'"0${lines[4]:1}"$'\n' --from 4 --to 5
expect 'all of it' part_is 0-11/12 "$(printf '%s\n' "${lines[@]:0:7}")"$'\n' --from 0
expect 'up to its end and beyond' part_is 0-11/12 "$(printf '%s\n' "${lines[@]:0:7}")"$'\n' --from 0 --to 18446744073709551615
expect 'a part of a file on standard input' eval 'oui-sign part --from 5 <whole.oui | cmp -s - <(oui-sign part whole.oui --from 5)'
oui-sign part whole.oui --from 5 -o part
expect 'a part to a file' eval 'oui-sign part whole.oui --from 5 | cmp -s - part'
for ends in head none; do
    sign key show -o $ends.oui --block-size 5 --id me-1 --ts 1700000000 --ends $ends
    oui-sign part $ends.oui --from 5 >part
    expect "a part of a stream with --ends $ends" eval 'LC_ALL=C sed "1,/^0;ouisig/d" part | cmp -s - <(printf "\r\n")'
done
expect 'the fields about the end are in its head' test "$(oui-sign part head.oui --from 5 | grep -acE '^(Digest|X-Ouinet-Data-Size|X-Ouinet-Sig1): ')" -eq 3

# no_part WORDS FILE OPTION..: whether no part is cut, with just this complaint, and nothing is written.
no_part() {
    local words=$1 status
    shift
    oui-sign part "$@" -o none 2>said
    status=$?
    [ $status -eq 2 ] && [ ! -e none ] && [ "$(head -n 1 said)" = "oui-sign: $words" ]
}
expect 'no byte named' no_part 'from which byte on? --from BYTE; see oui-sign --help' whole.oui
expect 'a byte that is no number' no_part '--from is a number, not "-1"' whole.oui --from -1
expect 'two first bytes' no_part '--from is given twice' whole.oui --from 1 --from 1
expect 'ends the wrong way round' no_part 'the last byte, --to 4, comes before the first, --from 5' whole.oui --from 5 --to 4
expect 'a byte behind the show' no_part 'whole.oui: the show has 12 bytes, so --from is at most 11, and not 12' whole.oui --from 12
expect 'a word too many' no_part '"ring" is one word too many' whole.oui ring --from 1
expect 'an option of others' no_part 'no option --uri here' whole.oui --from 1 --uri u
expect 'no such stream' no_part 'missing: No such file or directory (os error 2)' missing --from 1
: >nothing
sign key nothing -o nothing.oui
expect 'a part of nothing' no_part 'nothing.oui: the show is empty, and has no parts' nothing.oui --from 0
expect 'a file that is no stream' no_part 'show: no good signed stream: refused 11, it stops before its end' show --from 0
head -c 1000 whole.oui >stream
expect 'a stream that stops' no_part 'stream: no good signed stream: refused 11, it stops before its end' stream --from 0
LC_ALL=C sed 's/^ worl/ worm/' whole.oui >stream
expect 'a stream that was changed' no_part 'stream: no good signed stream: refused 10, a signature is wrong' stream --from 0
LC_ALL=C sed 's/^X-Ouinet-Version: 4/X-Ouinet-Version: 5/' whole.oui >stream
expect 'another version' no_part 'stream: no good signed stream: refused 5, it is of another version than 4' stream --from 0
oui-sign part whole.oui --from 5 >part
expect 'a part of a part' no_part 'part: a part answer itself, and parts are cut out of whole answers' part --from 5
sign key show -o stream --block-size 5 --header 'Content-Range: x'
expect 'a head that signs its range' no_part 'stream: its head signs Content-Range, which a part answer has of its own' stream --from 5
LC_ALL=C sed '2s/^/Content-Range: x\r\ncontent-RANGE: y\r\nx-ouinet-http-status: 404\r\n/' whole.oui >stream
expect 'fields that it has of its own, not signed' eval 'oui-sign part stream --from 5 | cmp -s - part'
fields=()
for i in $(seq 119); do fields+=(--header "Via: $i"); done
sign key show -o stream --block-size 5 "${fields[@]}"
expect 'a field too many' no_part 'stream: the head of a part has 129 fields, and 128 are the most' stream --from 5
sign key show -o stream --block-size 5 "${fields[@]:2}"
oui-sign part stream --from 5 >part
go_on part
expect 'as many as can be' ended 2 'the part begins at byte 5'
rm -f got
own=$(sign key show --block-size 5 --id me-1 --ts 1700000000 --header 'Via: ' | LC_ALL=C sed '/^\r/q' | wc -c)
sign key show -o stream --block-size 5 --id me-1 --ts 1700000000 --header "Via: $(printf "%0$((32768 - own - 50))d" 0)"
expect 'a byte too many' no_part 'stream: the head of a part has 32788 bytes, and 32768 are the most' stream --from 5
cat whole.oui | no_part 'standard input: the stream is read twice, and this can be read only once; put it into a file' --from 5
expect 'a pipe' test $? -eq 0
cp whole.oui same
oui-sign part same --from 5 -o ./same 2>said
expect 'a part over its own stream' test $? -eq 2 -a "$(cat said)" = 'oui-sign: ./same: the stream would be written over its own source'
expect 'which is left alone' cmp -s whole.oui same
oui-sign part whole.oui --from 5 -o /dev/full 2>said
expect 'a part that cannot be written' test $? -eq 2 -a "$(cat said)" = 'oui-sign: /dev/full: No space left on device (os error 28)'

# ---- parts, as oui-fetch takes them

unsigned='whether the show is complete was not checked: the end of a part answer, and that length, are not signed'
oui-sign part whole.oui --from 0 | fetch
expect 'a part that is the whole show' said_just 0 \
    "closed: 12 bytes in 3 blocks, each verified: bytes 0 to 11; that is all 12 bytes that the part answer gives the show; $unsigned"
expect 'its body' cmp -s show got
oui-sign part whole.oui --from 0 | fetch --require-complete
expect 'it is not taken for complete' ended 3 'closed: 12 bytes in 3 blocks'
oui-sign part whole.oui --from 0 --to 9 >part
fetch part
expect 'a beginning' said_just 3 'closed: 10 bytes in 2 blocks, each verified: bytes 0 to 9; that is 10 of 12 bytes, and 2 are missing'
expect 'it is there' test "$(cat got)" = 'Hello worl'
oui-sign part whole.oui --from 5 >part
for wanted in '' --require-complete --json; do
    fetch $wanted part >events
    expect "a part from the middle is not taken for the show $wanted" said_just 2 \
        'this is a part of the show, bytes 5 to 11, and its beginning was asked for; --continue puts a part behind a body that is there'
    expect "no byte of it comes out $wanted" test ! -s got
done
expect 'its range as JSON' grep -qFx '{"event":"head","status":206,"uri":"https://example.com/show","range":{"first":5,"last":11,"total":12}}' events
timeout 20 oui-fetch --ring ring --uri "$asked" part 2>said >out
expect 'nor to standard output' test $? -eq 2 -a ! -s out
rm -f got

# cut_and_go_on LENGTH: so much of the stream, then the rest as --range-for asks for it; whether the body is the show in the end.
cut_and_go_on() {
    local from
    rm -f got got.*
    head -c "$1" "$stream" | oui-relay --most 30 | go_on
    [ "$status" -eq 1 ] || return
    from=$(range got)
    oui-sign part "$stream" --from "${from:-0}" | oui-relay --most 30 | go_on
    [ "$status" -eq 0 ] && is_whole
}
stream=whole.oui
body=$(LC_ALL=C sed '/^\r/q' $stream | wc -c)
for length in 0 $((body - 1)) $(seq "$body" 13 "$(($(size $stream) - 1))"); do
    expect "cut off after $length bytes, and gone on with" cut_and_go_on "$length"
done
head -c 20000 /dev/urandom >large
cp show small
cp large show
sign key show -o large.oui --block-size 1000 --ends head
stream=large.oui
for length in $(seq 900 2777 "$(($(size $stream) - 1))"); do
    expect "20,000 bytes cut off after $length" cut_and_go_on "$length"
done

# Piece by piece: blocks two at a time, from wherever the body stops
rm -f got
for last in $(seq 1999 2000 19999); do
    from=$(range got)
    oui-sign part large.oui --from "${from:-0}" --to "$last" | go_on
    expect "up to byte $last" test "$status" -eq $((last == 19999 ? 0 : 3))
    expect "the body up to byte $last" cmp -s -n $((last + 1)) got show
done
expect 'all of it, in ten parts' is_whole

# A part may begin before the body stops, and a whole answer goes on too
for from in 0 1000 6500 7999 8000; do
    rm -f got got.*
    oui-sign part large.oui --from 0 --to 7999 | go_on
    oui-sign part large.oui --from $from | go_on
    expect "from byte $from on, where 8000 are there" ended 0 "closed: $((20000 - from / 1000 * 1000)) bytes in $((20 - from / 1000)) blocks, each verified: bytes"
    expect "the show from byte $from on" is_whole
done
for cut in 12000 30000; do
    rm -f got got.*
    oui-sign part large.oui --from 0 --to 7999 | go_on
    head -c $cut large.oui | go_on --json >events
    expect "a whole answer of $cut bytes" test "$status" -eq $((cut < 20000 ? 1 : 0))
done
expect 'it can be complete' said_just 0 'complete: 20000 bytes in 20 blocks, each verified, the whole show'
expect 'and is the show' is_whole
expect 'how many bytes there are as JSON' test "$(tail -n 1 events)" = '{"event":"complete","total":20000,"body":20000}'
rm -f got got.*
head -c 5000 large.oui | go_on --json >events
expect 'of a beginning too' grep -q '^{"event":"refused","number":11,.*,"body":3000}$' events
head -c 2500 large.oui | go_on --json >events
expect 'less than is there takes nothing away' grep -q '^{"event":"refused","number":11,.*,"body":3000}$' events
oui-sign part large.oui --from 3000 --to 3999 | go_on --json >events
expect 'the last event of a part as JSON' test "$(tail -n 1 events)" = '{"event":"closed","total":1000,"body":4000}'
expect 'what is missing' said_just 3 \
    'closed: 1000 bytes in 1 blocks, each verified: bytes 3000 to 3999; got has 4000 of 20000 bytes, and 16000 are missing (oui-fetch --range-for got)'
expect 'it goes on from there' test "$(oui-fetch --range-for got)" = 'Range: bytes=4000-'
oui-sign part large.oui --from 4000 | timeout 20 oui-fetch --ring ring --any-uri --continue --quiet -o got 2>said
expect 'with any URI, quietly' test $? -eq 0 -a ! -s said
expect 'to the end' is_whole

# The end of a stream that has none
sign key show -o bare.oui --block-size 1000 --ends none
rm -f got got.*
go_on --require-complete bare.oui
expect 'a closed show may have more' ended 3 'closed: 20000 bytes in 20 blocks, each verified; whether the show is complete was not checked'
expect 'so it can be gone on with' test "$(range got)" = 20000
go_on bare.oui
expect 'unless that will do' ended 0 'closed: 20000 bytes in 20 blocks'
expect 'then nothing is left beside it' is_whole

# Cut off behind the last block: there may be no byte more, so the last block is asked for again, or all of it
rm -f got got.*
oui-sign part large.oui --from 0 --to 18999 | go_on
oui-sign part large.oui --from 19000 | head -c -1 | go_on
expect 'all bytes, and no end' ended 1 'refused 11: the stream stops before its end; the 1000 bytes before were verified; got has 20000 verified bytes'
expect 'the last block is asked for' test "$(range got)" = 19000
oui-sign part large.oui --from 19000 | go_on
expect 'and ends it' ended 0 'closed: 1000 bytes in 1 blocks, each verified: bytes 19000 to 19999; got has all 20000 bytes'
expect 'the show, ended so' is_whole
rm -f got got.*
head -c -1 large.oui | go_on
expect 'where nobody has said how long it is' test "$(range got)" = 20000
oui-sign part large.oui --from 20000 2>said
expect 'a kit has no such part' test $? -eq 2
go_on large.oui
expect 'but the whole answer' said_just 0 'complete: 20000 bytes in 20 blocks, each verified, the whole show'
expect 'which ends it' is_whole

# What a stream gives the show is the sender's word where it is not signed: less than is there, and less than there is
rm -f got got.*
oui-sign part large.oui --from 0 --to 7999 | go_on
oui-sign part large.oui --from 0 --to 4999 | LC_ALL=C sed 's|^Content-Range: bytes 0-4999/20000|Content-Range: bytes 0-4999/5000|' | go_on
expect 'a part that gives the show less than is there' said_just 3 \
    'closed: 5000 bytes in 5 blocks, each verified: bytes 0 to 4999; got has 8000 bytes, and the part answer gives the show only 5000'
expect 'nothing is taken away' test "$(size got)" -eq 8000 -a "$(range got)" -eq 8000
{ LC_ALL=C sed '/^\r/q' bare.oui; oui-sign part bare.oui --from 0 --to 4999 | LC_ALL=C sed '1,/^\r/d'; } >stream
rm -f got got.*
oui-sign part bare.oui --from 0 --to 7999 | go_on
go_on stream
expect 'a whole answer that was shortened' said_just 3 \
    'closed: 5000 bytes in 5 blocks, each verified; but got has 8000 bytes, all verified, and the stream gives the show only 5000'
expect 'it can be gone on with' test "$(range got)" -eq 8000
rm -f got got.*
oui-sign part large.oui --from 0 --to 4999 | LC_ALL=C sed 's|^Content-Range: bytes 0-4999/20000|Content-Range: bytes 0-4999/5000|' | go_on
expect 'a part that gives the show less than there is' said_just 0 \
    "closed: 5000 bytes in 5 blocks, each verified: bytes 0 to 4999; got has all 5000 bytes that the part answer gives the show; $unsigned"

# ---- what is not gone on with

# begin: a body of 8000 bytes out of 20,000, with what is recorded of it, and copies of both.
begin() {
    rm -f got got.*
    oui-sign part large.oui --from 0 --to 7999 | go_on
    cp got kept
    cp got.unfinished kept.unfinished
}

# is_kept: whether both are as they were.
is_kept() {
    cmp -s got kept && cmp -s got.unfinished kept.unfinished
}

left='what is there was left as it is'
begin
oui-sign part large.oui --from 9000 | go_on
expect 'a gap' said_just 2 "the part begins at byte 9000, and got has only 8000 verified bytes: ask for Range: bytes=8000-; $left"
expect 'a gap changes nothing' is_kept
sign key show -o other.oui --block-size 1000 --id other
oui-sign part other.oui --from 8000 | go_on
own=$(LC_ALL=C sed -n 's/^X-Ouinet-Injection: id=\([^,]*\),.*/\1/p' large.oui)
expect 'another id' said_just 2 "this is another show than that in got: its id is \`other\`, and not \`$own\`; $left"
expect 'another id changes nothing' is_kept
go_on other.oui
expect 'a whole answer with another id' ended 2 "this is another show than that in got: its id is \`other\`"
expect 'it changes nothing' is_kept
sign key show -o other.oui --block-size 500 --id "$own"
oui-sign part other.oui --from 8000 | go_on
expect 'other blocks' said_just 2 "this is another show than that in got: its blocks have 500 bytes, and not 1000; $left"
expect 'other blocks change nothing' is_kept
oui-sign key other >>ring
sign other show -o other.oui --block-size 1000 --id "$own"
oui-sign part other.oui --from 8000 | go_on
expect 'another key' said_just 2 "this is another show than that in got: it is signed with another key; $left"
expect 'another key changes nothing' is_kept
asked=https://example.com/other
sign key show -o other.oui --block-size 1000 --id "$own"
oui-sign part other.oui --from 8000 >part
go_on part
expect 'another URI' said_just 2 'got: this is another show: asked for `https://example.com/other`, got `https://example.com/show`'
timeout 20 oui-fetch --ring ring --any-uri --continue -o got part 2>said
expect 'by --any-uri too' test $? -eq 2 -a "$(cat said)" = \
    'oui-fetch: got: this is another show: asked for `https://example.com/other`, got `https://example.com/show`'
asked=https://example.com/show
go_on part
expect 'another URI than asked for' ended 1 'refused 16: this is another show: asked for `https://example.com/show`, got `https://example.com/other`; nothing was verified; got has 8000 verified bytes'
expect 'another URI changes nothing' is_kept

# Of the same id, and with other bytes
{ head -c 7000 show; head -c 1000 /dev/urandom; tail -c +8001 show; } >changed
sign key changed -o changed.oui --block-size 1000 --id "$own"
begin
oui-sign part changed.oui --from 8000 | go_on
expect 'other bytes before the part' said_just 2 "this is another show than that in got: it has the same id, but other bytes before byte 8000; $left"
expect 'they change nothing' is_kept
for from in 7000 6000 0; do
    oui-sign part changed.oui --from $from | go_on
    expect "other bytes in a part from $from on" said_just 2 "this is another show than that in got: it has the same id, but other bytes from byte 7000; $left"
    expect "a part from $from on changes nothing" is_kept
done
go_on changed.oui
expect 'other bytes in a whole answer' ended 2 'this is another show than that in got: it has the same id, but other bytes from byte 7000'
expect 'it changes nothing' is_kept
# The hash is random, and may begin with any letter of base64: an A becomes a B, and any other letter an A.
oui-sign part large.oui --from 8000 | LC_ALL=C sed -e 's/;ouihash=A/;ouihash=B/' -e t -e 's/;ouihash=./;ouihash=A/' | go_on
expect 'another hash to begin with' ended 1 'refused 10: a signature is wrong'
expect 'which changes nothing' is_kept
oui-sign part large.oui --from 8000 | oui-relay --change 3000 | go_on
expect 'a part that was changed on its way' ended 1 'refused 10: a signature is wrong'
expect 'nothing of the wrong block is there' cmp -s -n "$(size got)" got show
expect 'but what is before it' test "$(size got)" -lt 11000 -a "$(size got)" -ge 8000

# A body that was changed in the meantime
over='to start over, take both files away or leave out --continue'
# spoiled WORDS: whether nothing is gone on with, here and by --range-for, with these words, and both files stay.
spoiled() {
    cp got now
    cp got.unfinished now.unfinished
    oui-fetch --range-for got >out 2>said
    [ $? -eq 2 ] && [ ! -s out ] && [ "$(cat said)" = "oui-fetch: $1" ] || return
    oui-sign part large.oui --from 8000 | go_on
    said_just 2 "$1" && cmp -s got now && cmp -s got.unfinished now.unfinished
}
# unlike PLACE: a byte that kept has not at this place, counted from 0; its bytes are random.
unlike() {
    if dd if=kept bs=1 skip="$1" count=1 2>/dev/null | cmp -s - <(printf x); then printf y; else printf x; fi
}
begin
{ unlike 0; tail -c +2 kept; } >got
expect 'a first byte that was changed' spoiled "got: its first 8000 bytes are not those that were verified (got.unfinished): it was changed since; $over"
cp kept got
{ printf x; cat kept; } >got
expect 'a byte put before it' spoiled "got: its first 8000 bytes are not those that were verified (got.unfinished): it was changed since; $over"
head -c 5000 kept >got
expect 'a body that was cut' spoiled "got has 5000 bytes, and 8000 were verified (got.unfinished): it was cut since; $over"
: >got
expect 'an empty body' spoiled "got has 0 bytes, and 8000 were verified (got.unfinished): it was cut since; $over"
rm got
oui-fetch --range-for got 2>said
expect 'no body, and no range' test $? -eq 2 -a "$(cat said)" = "oui-fetch: got is not there, though got.unfinished is; $over"
go_on large.oui
expect 'no body' said_just 2 "got is not there, though got.unfinished is; $over"
expect 'and none is made' test ! -e got
rm got.unfinished
oui-fetch --range-for got >out 2>said
expect 'neither of the two' test $? -eq 0 -a ! -s out -a "$(cat said)" = \
    'oui-fetch: got: nothing is known to be verified; ask for the whole show, without a Range'
go_on large.oui
expect 'then it is begun' is_whole

# More than is verified is cut off, and told
begin
head -c 1500 /dev/urandom >>got
expect 'where it goes on' test "$(range got)" = 8000
expect '--range-for changes nothing' test "$(size got)" -eq 9500
oui-sign part large.oui --from 8000 --to 8999 | go_on
expect 'what is said of bytes that nobody verified' test "$(head -n 1 said)" = 'oui-fetch: got: 1500 bytes behind the 8000 verified ones are cut off'
expect 'they are no longer there' test "$status" -eq 3 -a "$(size got)" -eq 9000
expect 'and the others are' cmp -s -n 9000 got show
# The last block but one is recorded, too: where the last one is wrong, that will do
begin
{ head -c 7500 kept; unlike 7500; tail -c +7502 kept; } >got
oui-sign part large.oui --from 7000 | go_on
expect 'a last block that was changed' test "$status" -eq 0 -a "$(head -n 1 said)" = 'oui-fetch: got: of 8000 verified bytes the first 7000 are still there'
expect 'is fetched again' is_whole
# As after a loss of power: the disk has what it was told to keep, and not all that is recorded behind it
begin
flushed=$(LC_ALL=C sed -n 's/^flushed  //p' got.unfinished)
expect 'what the disk was told to keep' test "${flushed%% *}" = 0000008000
oui-sign part large.oui --from 8000 --to 11999 | go_on
LC_ALL=C sed "s/^flushed .*/flushed  $flushed/" got.unfinished >now && cat now >got.unfinished
truncate -s 9000 got
expect 'what is asked for after a loss of power' test "$(range got)" = 8000
oui-sign part large.oui --from 8000 | go_on
expect 'what is said of it' test "$status" -eq 0 -a "$(head -n 1 said)" = 'oui-fetch: got: of 12000 verified bytes the first 8000 are still there'
expect 'it is fetched again' is_whole

# What is recorded, changed
# record_edit SED: the record with an edit, which must be one.
record_edit() {
    begin
    LC_ALL=C sed "$1" kept.unfinished >got.unfinished
    ! cmp -s got.unfinished kept.unfinished
}
unknown='is not as oui-fetch writes it, so what is verified is not known'
for edit in '1:1s/1$/2/' '1:1d' '2:s/^uri //' '3:s/^id .*/id /' '4:s/^block-size .*/block-size 0/' '5:s/^key ../key /' '6:s/^total .*/total many/' \
    '9:/^flushed/d' '9:s/^verified 00/verified xx/' '10:$s/$/\n/'; do
    expect "an edit of line ${edit%%:*}: ${edit#*:}" record_edit "${edit#*:}"
    expect "it is told: ${edit#*:}" spoiled "got.unfinished: line ${edit%%:*} $unknown; $over"
done
: >got.unfinished
expect 'an empty record' spoiled "got.unfinished: line 1 $unknown; $over"
changed="got: its first 8000 bytes are not those that were verified (got.unfinished): it was changed since; $over"
expect 'another hash' record_edit "s/^\\(flushed \\|verified\\) \\([0-9]*\\) .*/\\1 \\2 $(printf '%0128d' 7)/"
expect 'it is not that of the body' spoiled "$changed"
expect 'another block size' record_edit 's/^block-size .*/block-size 999/'
expect 'it does not fit the body' spoiled "$changed"
expect 'another length' record_edit 's/ 0000008000 / 0000007999 /;s/ 0000007000 / 0000006999 /'
expect 'that does not fit either' spoiled "got: its first 7999 bytes are not those that were verified (got.unfinished): it was changed since; $over"
expect 'another id' record_edit 's/^id .*/id other/'
oui-sign part large.oui --from 8000 | go_on
expect 'then the show is another one' said_just 2 "this is another show than that in got: its id is \`$own\`, and not \`other\`; $left"
expect 'and the body stays' cmp -s got kept

# Words and files that are no good
echo mine >mine
timeout 20 oui-fetch --ring ring --uri "$asked" --continue -o mine large.oui 2>said
expect 'a body of others' test $? -eq 2 -a "$(cat said)" = \
    'oui-fetch: mine is there and mine.unfinished is not: it is finished, or not from --continue; without --continue it is written anew'
expect 'it is left alone' test "$(cat mine)" = mine -a ! -e mine.unfinished
expect 'nothing of it is known' test -z "$(range mine)"
timeout 20 oui-fetch --ring ring --uri "$asked" --continue large.oui 2>said
expect 'no body named' test $? -eq 2 -a "$(cat said)" = 'oui-fetch: with --continue the body needs a file: -o BODY'
timeout 20 oui-fetch --ring ring --uri "$asked" --continue -o /dev/null large.oui 2>said
expect 'no ordinary file' test $? -eq 2 -a "$(cat said)" = 'oui-fetch: /dev/null: --continue needs an ordinary file'
timeout 20 oui-fetch --ring ring --uri "$asked" --continue -o . large.oui 2>said
expect 'a folder' test $? -eq 2 -a "$(cat said)" = 'oui-fetch: .: Is a directory (os error 21)'
timeout 20 oui-fetch --range-for got --json 2>said
expect 'a word beside --range-for' test $? -eq 2 -a "$(cat said)" = 'oui-fetch: --range-for BODY stands alone; see oui-fetch --help'
timeout 20 oui-fetch --range-for 2>said
expect 'no body for a range' test $? -eq 2 -a "$(cat said)" = 'oui-fetch: --range-for needs a value; see oui-fetch --help'
cp large.oui same
timeout 20 oui-fetch --ring ring --uri "$asked" --continue -o ./same same 2>said
expect 'a body over its own stream' test $? -eq 2 -a "$(cat said)" = 'oui-fetch: ./same: the body would be written over the stream'
expect 'the stream is left alone' cmp -s large.oui same
begin
mkfifo slow
timeout 20 oui-fetch --ring ring --uri "$asked" --continue -o got <slow 2>first_said &
other=$!
exec 9>slow
oui-sign part large.oui --from 8000 >part
head -c 3000 part >&9
for i in $(seq 100); do [ "$(size got)" -gt 8000 ] && break; sleep 0.02; done
go_on part
expect 'two at a time' said_just 2 'got: another oui-fetch is writing it'
timeout 20 oui-fetch --ring ring --uri "$asked" -o got large.oui 2>said
expect 'nor is it written anew meanwhile' test $? -eq 2 -a "$(cat said)" = 'oui-fetch: got: another oui-fetch is writing it' -a -e got.unfinished
tail -c +3001 part >&9
exec 9>&-
wait $other
expect 'the first one goes on' test $? -eq 0
expect 'and has all of it' is_whole
begin
fetch other.oui
expect 'without --continue it is written anew' test ! -e got.unfinished
tell
