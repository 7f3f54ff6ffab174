#!/usr/bin/env bash
# Signer, relay and oui-fetch together, with real Ed25519: what is sent is what comes out, however it is cut, with repeated fields too; a stream
# that is cut off, changed on its way or signed by someone else is refused, and leaves only its verified beginning; where a text went wrong is told
# and shown; a show that was not asked for is refused, whoever signed it; and whether a show is whole is told by the fields about its end.
set -uo pipefail
shopt -s lastpipe # so that a fetch at the end of a pipe can set its status
cd "$(dirname "$0")/.."
. scripts/counting
. scripts/fetching

# offset TEXT: where in the file `stream` the text first stands.
offset() {
    LC_ALL=C grep -abo -e "$1" stream | head -n 1 | cut -d : -f 1
}

# is_beginning: whether what came out is a beginning of the show, and not all of it.
is_beginning() {
    local length
    length=$(stat -c %s got)
    [ "$length" -lt "$(stat -c %s show)" ] && cmp -s -n "$length" got show
}

# A key
oui-sign key key >ring 2>said
expect 'a key is made' test $? -eq 0
expect 'nobody else may read it' test "$(stat -c %a key)" = 600
expect 'its line has a key and two seconds' grep -Eqx '[A-Za-z0-9+/]{43}= 0 4102444800' ring
oui-sign key key >again 2>said
expect 'a key that is there is not made anew' test $? -eq 2 -a ! -s again
expect 'it has the same line' test "$(oui-sign ring key)" = "$(cat ring)"

for wrong in '--block-size 0' '--block-size 65537' '--id a.b' '--ts 1000000000000' '--ends both' '--more 1'; do
    sign key ring ${wrong% *} "${wrong##* }" -o none 2>said
    expect "oui-sign $wrong" test $? -eq 2 -a ! -e none
done

# no_uri URI WORDS: whether a URI is not taken, with just these words, and nothing is written.
no_uri() {
    oui-sign sign key ring --uri "$1" -o none 2>said
    [ $? -eq 2 ] && [ ! -e none ] && [ "$(cat said)" = "oui-sign: $2" ]
}

oui-sign sign key ring -o none 2>said
expect 'no URI' test $? -eq 2 -a ! -e none -a "$(cat said)" = 'oui-sign: which show is it? --uri URI; see oui-sign --help'
sign key ring --uri "$asked" -o none 2>said
expect 'two URIs to sign' test $? -eq 2 -a ! -e none -a "$(head -n 1 said)" = 'oui-sign: --uri is given twice'
expect 'an empty URI' no_uri '' '--uri must not be empty: no reader takes a head without a URI'
for blank in ' ' $'\t' ' show' 'show ' $'show\t' ' show '; do
    expect "blanks around a URI: '$blank'" no_uri "$blank" "--uri: a field's value has no blanks at its ends"
done
expect 'a line end in a URI' no_uri $'show\r\nA: b' "--uri: \\r at offset 4 may not stand in a field's value"
expect 'a line feed at the end of a URI' no_uri $'show\n' "--uri: \\n at offset 4 may not stand in a field's value"
expect 'a control character in a URI' no_uri $'a\x1bb' "--uri: \\x1b at offset 1 may not stand in a field's value"
expect 'a deletion in a URI' no_uri $'\x7f' "--uri: \\x7f at offset 0 may not stand in a field's value"
expect 'a URI that is too long' no_uri "$(printf '%032500d' 0)" "the head has 33186 bytes, and 32768 are the most"
sign key ring --type 'text/plain ' -o none 2>said
expect 'a blank at the end of a value' test $? -eq 2 -a ! -e none -a "$(cat said)" = "oui-sign: --type: a field's value has no blanks at its ends"
sign key ring --header $'Via: \xe9' -o none 2>said
expect 'a word that is no UTF-8' test $? -eq 2 -a ! -e none -a "$(grep -c 'no UTF-8' said)" = 1

# not_signed WORDS HEADER..: whether these further fields are refused with just these words, and nothing is written.
not_signed() {
    local words=$1 given=() header
    shift
    for header in "$@"; do given+=(--header "$header"); done
    sign key ring "${given[@]}" -o none 2>said
    [ $? -eq 2 ] && [ ! -e none ] && [ "$(cat said)" = "oui-sign: $words" ]
}

expect 'a field without a colon' not_signed "--header: \"Vary\" has no colon; write 'Name: value'" 'Via: x' Vary
expect 'a field without a name' not_signed '--header: a field needs a name before its colon' ': x'
expect 'a blank in a name' not_signed "--header: ' ' at offset 4 may not stand in a field's name" 'Vary : x'
expect 'a line end in a field' not_signed "--header Vary: \\n at offset 1 may not stand in a field's value" $'Vary: a\nB: c'
for name in X-Ouinet-Foo x-ouinet- CONTENT-length Transfer-Encoding; do
    expect "$name" not_signed "--header: $name belongs to the format of signed streams and cannot be given" "$name: 5"
done
expect 'a type' not_signed '--header: content-TYPE is set by --type' 'content-TYPE: text/plain'
for name in Digest dIGEST X-Ouinet-Data-Size x-ouinet-sig1; do
    expect "$name" not_signed "--header: $name is about the show's end and is set by --ends" "$name: 5"
done
expect 'a value that is too long' not_signed 'the head has 33229 bytes, and 32768 are the most' "Via: $(printf '%032500d' 0)" 'Via: x'
fields=() names=()
for i in $(seq 121); do fields+=("Via: $i") names+=("N$i: x"); done
expect 'a field too many' not_signed 'the head has 129 fields, and 128 are the most' "${fields[@]}"
expect 'a name too many' not_signed 'the head has 33 signed names, and 32 are the most' "${names[@]:0:26}"

# What is sent comes out
seed=0
for lengths in 0:5 1:1 5:5 12:5 1000:1 65536:65536 65537:65536 200000:1000 1048577:65536; do
    seed=$((seed + 1))
    head -c "${lengths%:*}" /dev/urandom >show
    sign key show --block-size "${lengths#*:}" >stream
    oui-relay --seed $seed --most $((seed * seed * 20)) <stream | fetch
    expect "${lengths%:*} bytes in blocks of ${lengths#*:}" ended 0 "complete: ${lengths%:*} bytes"
    expect "the same ${lengths%:*} bytes" cmp -s show got
done

# Fields that are repeated
head -c 3000 /dev/urandom >show
sign key show -o good --block-size 1000 --header 'Vary: Accept' --header 'Via: 1.1 first' --header vary: \
    --header 'Via: 1.1 second' --header 'VARY:  Cookie, Origin '
expect 'repeated fields are signed' test $? -eq 0
expect 'each name is listed once' grep -aq ' x-ouinet-bsigs vary via",signature=' good
expect 'and has its lines' test "$(LC_ALL=C sed '/^\r/q' good | grep -aicE '^(vary|via):')" -eq 5
for most in 1 2 9 400; do
    oui-relay --seed "$most" --most "$most" <good | fetch
    expect "repeated fields in pieces of $most at most" ended 0 'complete: 3000 bytes in 3 blocks'
    expect "their show in pieces of $most at most" cmp -s show got
done

given=()
for field in "${fields[@]:0:120}"; do given+=(--header "$field"); done
sign key show --block-size 1000 "${given[@]}" | oui-relay --most 50 | fetch
expect 'as many lines of a name as can be' ended 0 'complete: 3000 bytes in 3 blocks'

# reached STATUS WORDS SED..: how a fetch ends of the stream with an edit of its head.
reached() {
    local status_due=$1 words=$2
    shift 2
    { LC_ALL=C sed '/^\r/q' good | LC_ALL=C sed "$@"; LC_ALL=C sed '1,/^\r/d' good; } >stream
    oui-relay --most 60 <stream | fetch
    ended "$status_due" "$words" && ! cmp -s good stream
}

wrong='refused 10: a signature is wrong'
expect 'a name written otherwise' reached 0 complete 's/^VARY:/Vary:/'
expect 'other blanks' reached 0 complete 's/^Via: /Via:\t  /'
expect 'lines of two names in another order' reached 0 complete '/^Vary:/{h;d};/^Via: 1.1 first/G'
expect 'values that were joined on the way' reached 0 complete '/^Via: 1.1 second/d;s/^Via: 1.1 first/&, 1.1 second/'
expect 'lines of one name in another order' reached 1 "$wrong" '/^Via: 1.1 first/{h;d};/^Via: 1.1 second/G'
expect 'a changed value behind the first' reached 1 "$wrong" 's/^Via: 1.1 second/Via: 1.1 Second/'
expect 'a line too few' reached 1 "$wrong" '/^Via: 1.1 second/d'
expect 'an empty line of a name too few' reached 1 "$wrong" '/^vary:/d'
expect 'a line too many' reached 1 "$wrong" 's/^VARY/vary: Range\r\n&/'
expect 'values joined without a space' reached 1 "$wrong" '/^Via: 1.1 second/d;s/^Via: 1.1 first/&,1.1 second/'

# By other ways
head -c 300000 /dev/urandom >show
asked='https://example.com/a "show"'
sign key - -o stream --id me-1 --ts 1700000000 --type video/webm <show
expect 'the signer reads standard input' test $? -eq 0
fetch stream
expect 'a stream in a file' ended 0 'complete: 300000 bytes in 5 blocks'
timeout 20 oui-fetch --ring ring --uri "$asked" <stream 2>said | cmp -s - show
expect 'a body to standard output' test $? -eq 0
fetch --quiet stream
expect 'quiet' test "$status" -eq 0 -a ! -s said
expect 'the options stand in the head' grep -aq '^X-Ouinet-Injection: id=me-1,ts=1700000000' stream
fetch --json stream >events
cat >due <<'END'
{"event":"question","length":281,"record":0}
{"event":"head","status":200,"uri":"https://example.com/a \"show\""}
{"event":"question","length":71,"record":0}
{"event":"block","offset":0,"length":65536}
END
head -n 4 events | cmp -s - due
expect 'events as JSON' test $? -eq 0
expect 'the last event as JSON' test "$(tail -n 1 events)" = '{"event":"complete","total":300000}'

# Cut off
size=$(stat -c %s stream)
for place in 0 1 500 1000 66000 70000 132000 290000 $((size - 1)); do
    oui-relay --stop-after $place <stream | fetch
    expect "cut off after $place" ended 1 'refused 11: the stream stops before its end'
    [ "$place" -eq $((size - 1)) ] || expect "a beginning after $place" is_beginning
done
oui-relay --stop-after 100000 <stream | fetch --json >events
expect 'a refusal as JSON' test "$(tail -n 1 events)" = \
    '{"event":"refused","number":11,"meaning":"the stream stops before its end","at":null,"stream_offset":null}'

# Changed on its way: in a block, in a signature, in a signed field, in a chunk's size
start=$(grep -abo $'^10000\r' stream | head -n 1 | cut -d : -f 1)
zero=$(LC_ALL=C grep -abo '^0;ouisig=' stream | tail -n 1 | cut -d : -f 1)
for place in $((start + 10)) $((start + 30000)) $((start + 65536)) $((start + 80000)) $((start + 200000)) $((zero - 100)); do
    oui-relay --change "$place" <stream | fetch
    expect "changed at $place" ended 1 'refused 10: a signature is wrong'
    expect "a beginning before $place" is_beginning
done
type=$(grep -abo 'video/webm' stream | head -n 1 | cut -d : -f 1)
oui-relay --change "$type" <stream | fetch
expect 'changed in the head' ended 1 'refused 10: a signature is wrong'
expect 'nothing comes out' test ! -s got
uri=$(grep -abo 'example.com/a' stream | head -n 1 | cut -d : -f 1)
oui-relay --change "$uri" <stream | fetch
expect 'changed in its URI' ended 1 \
    "refused 16: this is another show: asked for \`$asked\`, got \`https://dxample.com/a \"show\"\`; nothing was verified"
expect 'nothing comes out of that' test ! -s got
# A size of 0: what follows is taken for the trailer
oui-relay --change "$start" <stream | fetch
expect 'changed in a size' test "$status" -eq 1
expect 'in words' grep -q "^oui-fetch: refused 6: the trailer, from offset $((start + 7)) of the stream, has no end within 32,768 bytes; nothing" said
expect 'nothing of its bytes comes out' test ! -s got

# Where a text went wrong
asked=https://example.com/show
printf 'Hello world!' >show
sign key show -o good --block-size 5 --id me-1 --ts 1700000000
uri='X-Ouinet-URI: https://example.com/show'

# spoil SED..: the stream with an edit, then a fetch of it in small pieces.
spoil() {
    LC_ALL=C sed "$@" good >stream
    oui-relay --most 9 <stream | fetch
}

spoil 's/^X-Ouinet-URI:/X-Ouinet-URI :/'
expect 'a blank in a name' told 'refused 3: the text of the head goes wrong at offset 50 of the stream (line 3, column 13); nothing was verified' \
    'X-Ouinet-URI : https://example.com/show\r\n' '            ^'
spoil $'s|^X-Ouinet-URI: https|X-Ouinet-URI:\t\\\\\x1b[2J\x01|'
expect 'control bytes, a tab and a backslash' told \
    'refused 3: the text of the head goes wrong at offset 53 of the stream (line 3, column 16); nothing was verified' \
    'X-Ouinet-URI:\t\\\x1b[2J\x01://example.com/show\r\n' '                 ^^^^'
spoil '1s/200/20/'
expect 'two digits of a status' told \
    'refused 3: the text of the head goes wrong at offset 11 of the stream (line 1, column 12); nothing was verified' \
    'HTTP/1.1 20 OK\r\n' '           ^'
spoil '3s/\r//'
expect 'a lost CR' told 'refused 3: the text of the head goes wrong at offset 76 of the stream (line 3, column 39); nothing was verified' \
    '...-URI: https://example.com/show\nX-Ouinet-Injection: id=me-1,ts=170000000...' '                                 ^^'
long=$(printf '%0200d' 0)
spoil "s|^$uri|$uri$long~$long|;s/~/\\x7f/"
expect 'a byte far into a line' told \
    'refused 3: the text of the head goes wrong at offset 276 of the stream (line 3, column 239); nothing was verified' \
    "...${long:0:30}\\x7f${long:0:38}..." '                                 ^^^^'
spoil '2s/$/\nX-Ouinet-A: 1\r\nDate: now\r\nx-oUINET-a: 2\r/'
expect 'a field of ours twice' told \
    'refused 3: the head has x-oUINET-a twice, in lines 3 and 5, and may have it only once; nothing was verified' \
    'x-oUINET-a: 2\r\n' '^^^^^^^^^^'
spoil '2s/$/\nVary: a\r\nVary: b\r/;/^Transfer-Encoding/p'
expect 'a coding twice, and a field that may be' told \
    'refused 3: the head has Transfer-Encoding twice, in lines 10 and 11, and may have it only once; nothing was verified' \
    'Transfer-Encoding: chunked\r\n' '^^^^^^^^^^^^^^^^^'
spoil '2s/$/\nContent-Length: 12\r\nContent-Length: 12\r/'
expect 'a length twice' told \
    'refused 3: the head has Content-Length twice, in lines 3 and 4, and may have it only once; nothing was verified' \
    'Content-Length: 12\r\n' '^^^^^^^^^^^^^^'
spoil '2s/$/\nVary: a\r\nDate: now\r\nvARY: b\r/'
expect 'a field twice that is not signed' ended 0 'complete: 12 bytes in 3 blocks'
many=$(for i in $(seq 124); do printf 'F%d:\\r\\n' "$i"; done)
spoil "2s/^/$many/"
expect 'too many fields' told 'refused 3: the head has 132 fields, and 128 are the most; nothing was verified'
spoil "2s/^/${many}A b\\r\\n/"
expect 'too many fields and a wrong line' grep -q '^oui-fetch: refused 3: the text of the head goes wrong at offset .* (line 126, column 2); ' said
printf '<html>\n%033000d' 0 >stream
fetch stream
expect 'no head at all' told 'refused 3: the head has no end within 32,768 bytes; nothing was verified' "<html>\n${long:0:64}..."

spoil 's/^2;ouisig/2;Ouisig/'
line=$(LC_ALL=C grep -a '^2;Ouisig' stream)
expect 'a chunk line' told \
    "refused 6: the text of a chunk line goes wrong at offset $(($(offset '^2;Ouisig') + 2)) of the stream; the 5 bytes before were verified" \
    "${line:0:72}..." '  ^'
expect 'its verified beginning' test "$(cat got)" = Hello
spoil '/^2;ouisig=/s/==/A&/'
line=$(LC_ALL=C grep -a '^2;ouisig' stream | tr -d '\r')
expect 'a signature that is too long' told \
    "refused 6: the text of a chunk line goes wrong at offset $(($(offset '^2;ouisig') + 9 + 86)) of the stream; the 5 bytes before were verified" \
    "...${line:30}\\r\\n" "$(printf '%69s' ^)"
spoil 's/^2;ouisig=/&'"$long/"
line=$(LC_ALL=C grep -a '^2;ouisig' stream)
expect 'a line without an end' told \
    "refused 6: the chunk line at offset $(offset '^2;ouisig') of the stream has no end within 128 bytes; the 5 bytes before were verified" \
    "${line:0:72}..."
spoil 's/^Hello\r/HelloX/'
expect 'a data end' told "refused 6: a chunk's data is not followed by CR LF, at offset $(($(offset HelloX) + 5)) of the stream; nothing was verified" \
    'X\n' '^'
spoil $'s/^Hello\r/Hello\rX/'
expect 'half a data end' told \
    "refused 6: a chunk's data is not followed by CR LF, at offset $(($(offset Hello) + 6)) of the stream; nothing was verified" '\rX' '  ^'
sign key show -o bare --block-size 5 --id me-1 --ts 1700000000 --ends none
{ head -c -2 bare; printf 'A: b\r\n\rC: d\r\n\r\n'; } >stream
fetch --json stream >events
expect 'a trailer' told \
    "refused 6: the text of the trailer goes wrong at offset $(($(offset 'A: b') + 7)) of the stream (line 2, column 2); the 12 bytes before were verified" \
    '\rC: d\r\n' '  ^'
expect 'its verified body' cmp -s show got
expect 'a place as JSON' test "$(tail -n 1 events)" = '{"event":"refused","number":6,"meaning":"the body'"'"'s framing is broken: a chunk line, '\
'the end of a chunk or the trailer is wrong","at":7,"stream_offset":'$(($(offset 'A: b') + 7))'}'
fetch --quiet stream
expect 'quiet about it' test "$status" -eq 1 -a ! -s said

# noise SEED: 300 bytes or fewer, the same for a seed each time, without line feeds.
noise() {
    LC_ALL=C awk -v seed="$1" 'BEGIN { srand(seed); for (n = 0; n < 300; n++) { b = int(256 * rand()); if (b != 10) printf "%c", b } }'
}

# Whatever comes, what is shown of it is printable
for front in '' 'HTTP/1.1 200 OK\r\n' 'HTTP/1.1 200 OK\r\nA: b\r\n'; do
    for i in 1 2 3 4 5; do
        { printf "$front"; noise "$i"; printf '\r\n\r\n'; } >stream
        fetch stream
        expect "noise $i after '$front'" test "$status" -eq 1 -a "$(wc -l <said)" -eq 3 -a ! -s got
        expect "printable $i after '$front'" eval '! LC_ALL=C grep -q "[^ -~]" said'
        expect "the mark is under a byte $i after '$front'" awk 'NR == 2 { shown = length } NR == 3 { good = /^ *\^+$/ && length <= shown } END { exit !good }' said
    done
done

# Right signature, wrong show: two skies signed by one key
south=https://example.com/sky/south
north=https://example.com/sky/north
for sky in south north; do
    head -c 5000 /dev/urandom >$sky
    oui-sign sign key $sky -o $sky.oui --uri "${!sky}" --block-size 1000 --id "$sky" --ts 1700000000
    expect "the $sky is signed" test $? -eq 0
    oui-sign sign key $sky -o $sky.bare --uri "${!sky}" --block-size 1000 --id "$sky" --ts 1700000000 --ends none
    asked=${!sky}
    for most in 1 30 6000; do
        oui-relay --seed "$most" --most "$most" <$sky.oui | fetch
        expect "the $sky, asked for, in pieces of $most at most" ended 0 'complete: 5000 bytes in 5 blocks, each verified, the whole show'
        expect "no more is said of the $sky" test "$(cat said)" = 'oui-fetch: complete: 5000 bytes in 5 blocks, each verified, the whole show'
        expect "the same $sky in pieces of $most at most" cmp -s $sky got
    done
done

# mixed_up ASKED GOT: each is asked for, and the other one comes.
mixed_up() {
    local sentence="this is another show: asked for \`${!1}\`, got \`${!2}\`"
    asked=${!1}
    for most in 1 30 6000; do
        oui-relay --seed "$most" --most "$most" <"$2.oui" | fetch
        expect "the $2 for the $1, in pieces of $most at most" told "refused 16: $sentence; nothing was verified"
        expect "no byte of the $2 in pieces of $most at most" test -e got -a ! -s got
    done
    timeout 20 oui-fetch --ring ring --uri "$asked" "$2.oui" 2>said >out
    expect "no byte of the $2 to standard output" test $? -eq 1 -a ! -s out
    fetch --json "$2.oui" >events
    expect "the $2 for the $1 as JSON" test "$(cat events)" = '{"event":"refused","number":16,"meaning":"this is another show than the one '\
'asked for: the head has another URI","at":null,"stream_offset":null,"asked":"'"${!1}"'","got":"'"${!2}"'"}'
    fetch --quiet "$2.oui"
    expect "quiet about the $2" test "$status" -eq 1 -a ! -s said -a ! -s got
}
mixed_up south north
mixed_up north south
head -c 3000000 /dev/zero >large
oui-sign sign key large --uri "$north" 2>broken | fetch
expect 'the sender of another show is not to blame' test "${PIPESTATUS[0]}" -eq 0 -a ! -s broken

# almost URI SHOWN: what is almost the southern URI is another one's, and shown so.
almost() {
    asked=$1
    fetch south.oui
    told "refused 16: this is another show: asked for \`$2\`, got \`$south\`; nothing was verified" && [ ! -s got ]
}
expect 'in capital letters' almost https://example.com/sky/SOUTH https://example.com/sky/SOUTH
expect 'a beginning' almost https://example.com/sky/sout https://example.com/sky/sout
expect 'a byte more' almost https://example.com/sky/south/ https://example.com/sky/south/
expect 'a blank more' almost 'https://example.com/sky/south ' 'https://example.com/sky/south '
expect 'a line feed more' almost $'https://example.com/sky/south\n' 'https://example.com/sky/south\x0a'
expect 'a tab more' almost $'https://example.com/sky/south\t' 'https://example.com/sky/south\x09'
expect 'what looks like the end of a quotation' almost 'south`, got `north' 'south\x60, got \x60north'
expect 'bytes that are no text' almost $'\x1b[2J\xff\\' '\x1b[2J\xff\\'
long=$(printf '%0300d' 0)
oui-sign sign key south -o long.oui --uri "https://example.com/$long/south/"
asked=https://example.com/$long/north
fetch long.oui
expect 'long ones that differ late' told \
    "refused 16: this is another show: asked for \`...${long:0:39}/north\`, got \`...${long:0:39}/south/\`; nothing was verified"
asked=https://example.com/s$'\xc3\xbc'd
sign key south --block-size 1000 | fetch
expect 'one with bytes beyond ASCII' ended 0 'complete: 5000 bytes in 5 blocks'
asked=https://example.com/su$'\xcc\x88'd
oui-sign sign key south --uri https://example.com/s$'\xc3\xbc'd | fetch --json >events
expect 'the same written otherwise' told \
    'refused 16: this is another show: asked for `https://example.com/su\xcc\x88d`, got `https://example.com/s\xc3\xbcd`; nothing was verified'
expect 'bytes as JSON' grep -qF '"asked":"https://example.com/su\u00cc\u0088d","got":"https://example.com/s\u00c3\u00bcd"}' events

# By the user's choice, any
taken='any URI would do (--any-uri), and the head gives'
for sky in south north; do
    for most in 1 30 6000; do
        oui-relay --seed "$most" --most "$most" <$sky.oui | fetch_any
        expect "the $sky, if any, in pieces of $most at most" ended 0 "complete: 5000 bytes in 5 blocks, each verified, the whole show; $taken \`${!sky}\`"
        expect "the same $sky, if any, in pieces of $most at most" cmp -s $sky got
    done
    fetch_any --json $sky.oui >events
    expect "the $sky, if any, as JSON" test "$(tail -n 1 events)" = '{"event":"complete","total":5000,"any_uri":true}'
    expect "its head as JSON" grep -qFx '{"event":"head","status":200,"uri":"'"${!sky}"'"}' events
    fetch_any --quiet $sky.oui
    expect "quiet about the $sky, if any" test "$status" -eq 0 -a ! -s said
done

# any_of STATUS PATTERN SED..: how the southern stream ends, if any will do, with an edit of its head.
any_of() {
    local status_due=$1 words=$2
    shift 2
    { LC_ALL=C sed '/^\r/q' south.oui | LC_ALL=C sed "$@"; LC_ALL=C sed '1,/^\r/d' south.oui; } >stream
    oui-relay --most 60 <stream | fetch_any
    [ "$status" -eq "$status_due" ] && [[ $(head -n 1 said) == oui-fetch:\ $words ]]
}
good='complete: 5000 bytes in 5 blocks, each verified, the whole show'
none='nothing was verified; any URI would do (--any-uri)'
expect 'its name and blanks otherwise' any_of 0 "$good; $taken \`$south\`" 's/^X-Ouinet-URI: /x-oUINET-uri:\t /;s/south\r/south \t\r/'
expect 'its line last' any_of 0 "$good; $taken \`$south\`" '/^X-Ouinet-URI/{h;d};/^Transfer-Encoding/G'
expect 'another name like it first' any_of 0 "$good; $taken \`$south\`" '2s/^/X-Ouinet-URI2: u\r\n/'
expect 'a URI that was changed' any_of 1 "refused 10: a signature is wrong*; $taken \`https://example.com/sky/west\`" 's/south\r/west\r/'
expect 'no URI at all' any_of 1 "refused 4: *; $none" '/^X-Ouinet-URI/d'
expect 'an empty one' any_of 1 "refused 4: *; $none" 's/^X-Ouinet-URI:.*/X-Ouinet-URI: \t\r/'
expect 'two of them' any_of 1 'refused 3: the head has X-Ouinet-URI twice, *' '/^X-Ouinet-URI/p'
expect 'a text that is wrong' any_of 1 "refused 3: the text of the head goes wrong at offset 50 of the stream (line 3, column 13); $none" \
    's/^X-Ouinet-URI:/X-Ouinet-URI :/'
expect 'its line, with a mark' test "$(tail -n 1 said)" = '                ^'
for length in 0 1 500; do
    head -c "$length" south.oui | fetch_any
    expect "$length bytes, if any" ended 1 "refused 11: the stream stops before its end; $none"
done
head -c 33000 /dev/zero | tr '\0' x | fetch_any
expect 'no head, if any' test "$status" -eq 1 -a "$(head -n 1 said)" = "oui-fetch: refused 3: the head has no end within 32,768 bytes; $none"
pad=$(printf '%031000d' 0)
oui-sign sign key south --uri "$south" --block-size 1000 --header "Via: $pad" | LC_ALL=C sed '/^X-Ouinet-URI/{h;d};/^Via: 0/G' |
    oui-relay --most 3000 | fetch_any
expect 'at the end of a long head' ended 0 "$good; $taken \`$south\`"
oui-sign key stranger >/dev/null
oui-sign sign stranger south --uri "$south" -o strange.oui
fetch_any --json strange.oui >events
expect 'a stranger, if any' ended 1 'refused 12: the key is not trusted'
expect 'as JSON' test "$(cat events)" = '{"event":"refused","number":12,"meaning":"the key is not trusted: no record of the ring has it at the '\
'stream'"'"'s time, or the stream is not signed with one key throughout","at":null,"stream_offset":null,"any_uri":true}'
asked=$north
fetch strange.oui
expect 'a stranger with another show' ended 1 'refused 16: this is another show'

# As long a head as can be, by the length of its URI, and one that a blank makes too long
own=$(LC_ALL=C sed '/^\r/q' south.oui | wc -c)
for length in 8192 8193 32767 32768; do
    asked=$south$(printf "%0$((length - own))d" 0)
    sign key south -o full.oui --block-size 1000 --id south --ts 1700000000
    expect "a head of $length bytes" test "$(LC_ALL=C sed '/^\r/q' full.oui | wc -c)" -eq "$length"
    oui-relay --most 1 <full.oui | fetch_any
    expect "$length bytes of head are read, if any" test "$status" -eq 0 -a "$(cat said)" = "oui-fetch: $good; $taken \`${asked:0:100}...\`"
    expect "the show after $length bytes, if any" cmp -s south got
    oui-relay --most 3000 <full.oui | fetch
    expect "$length bytes of head are read" ended 0 "$good"
done
LC_ALL=C sed 's/^Transfer-Encoding:/& /' full.oui >stream
expect 'a head of 32,769 bytes' test "$(LC_ALL=C sed '/^\r/q' stream | wc -c)" -eq 32769
oui-relay --most 1 <stream | fetch_any
expect 'it is not read, if any' test "$status" -eq 1 -a ! -s got -a "$(head -n 1 said)" = \
    "oui-fetch: refused 3: the head has no end within 32,768 bytes; $none"
asked=${asked}0
sign key south -o none --block-size 1000 --id south --ts 1700000000 2>said
expect 'a byte too many is not signed' test $? -eq 2 -a ! -e none -a "$(cat said)" = 'oui-sign: the head has 32769 bytes, and 32768 are the most'

# A trailer as long as can be, and one byte more
asked=$south
# with_trailer LENGTH: the southern stream, without the fields about its end, with a trailer of so many bytes.
with_trailer() {
    head -c -2 south.bare
    printf 'A:%0*d\r\n\r\n' $(($1 - 6)) 0
}
for length in 8193 32768; do
    with_trailer "$length" | oui-relay --most 3000 | fetch
    expect "a trailer of $length bytes" ended 0 'closed: 5000 bytes in 5 blocks, each verified; '
done
with_trailer 32769 >stream
oui-relay --most 3000 <stream | fetch
expect 'a trailer of 32,769 bytes' told \
    "refused 6: the trailer, from offset $(offset '^A:0') of the stream, has no end within 32,768 bytes; the 5000 bytes before were verified" \
    "A:$(printf '%070d' 0)..."
expect 'the show before it' cmp -s south got
asked='a`b\c'
sign key south --block-size 1000 | fetch_any
expect 'an odd URI, if any' ended 0 "$good; $taken \`a\\x60b\\\\c\`"

# Signed by someone else, or at another time
asked=https://example.com/show
sign key show -o stream --ts 1700000000
oui-sign key other >ring
fetch stream
expect 'another key' ended 1 'refused 12: the key is not trusted'
expect 'nothing of it comes out' test ! -s got
oui-sign ring key --last 1699999999 >ring
fetch stream
expect 'another time' ended 1 'refused 12: the key is not trusted'
{ oui-sign ring other; oui-sign ring key --first 1700000000 --last 1700000000; } >ring
fetch --json stream >events
expect 'the second record' grep -q '"record":1' events
sed "s|$(oui-sign ring key | cut -c 1-43)|$(oui-sign ring other | cut -c 1-43)|g" stream >forged
fetch forged
expect 'a key put in place of the signer'"'"'s' ended 1 'refused 10: a signature is wrong'

# Files and words that are no good leave the target alone
echo kept >kept
{ cat ring; echo 'key 1 2'; } >bad
timeout 20 oui-fetch --ring bad --uri "$asked" -o kept stream 2>said
expect 'a ring that is none' test $? -eq 2 -a "$(cat said)" = 'oui-fetch: bad: line 3: the key is not 44 characters of base64 for 32 bytes'
timeout 20 oui-fetch --ring missing --uri "$asked" -o kept stream 2>said
expect 'no ring' test $? -eq 2 -a "$(cat said)" = 'oui-fetch: missing: No such file or directory (os error 2)'
for wanted in '--uri u' --any-uri; do
    timeout 20 oui-fetch --ring ring $wanted -o kept missing 2>said
    expect "no stream, $wanted" test $? -eq 2 -a "$(cat said)" = 'oui-fetch: missing: No such file or directory (os error 2)'
done
timeout 20 oui-fetch --ring ring --any-uri -o kept . 2>said
expect 'a folder for a stream' test $? -eq 2 -a "$(cat said)" = 'oui-fetch: .: Is a directory (os error 21)'

# no_show WORDS OPTION..: whether these words about the show that is asked for are not taken, with this complaint.
no_show() {
    local words=$1
    shift
    timeout 20 oui-fetch --ring ring -o kept "$@" stream 2>said
    [ $? -eq 2 ] && [ "$(cat said)" = "oui-fetch: $words" ]
}

expect 'neither a URI nor any' no_show 'which show is asked for? --uri URI, or --any-uri for whatever comes; see oui-fetch --help'
expect 'a URI and any' no_show 'either --uri or --any-uri, not both; see oui-fetch --help' --any-uri --uri "$asked"
expect 'any and a URI' no_show 'either --uri or --any-uri, not both; see oui-fetch --help' --uri "$asked" --any-uri
expect 'an empty URI to ask for' no_show '--uri is empty, and no show has an empty URI' --uri ''
expect 'two URIs' no_show '--uri is given twice; see oui-fetch --help' --uri "$asked" --uri "$asked"
timeout 20 oui-fetch --ring ring -o kept stream --uri 2>said
expect 'a URI that is left out' test $? -eq 2 -a "$(cat said)" = 'oui-fetch: --uri needs a value; see oui-fetch --help'
timeout 20 oui-fetch --uri "$asked" -o kept stream 2>said
expect 'no ring named' test $? -eq 2
timeout 20 oui-fetch --ring ring --uri "$asked" --json stream 2>said
expect 'JSON and the body to one place' test $? -eq 2 -a "$(cat said)" = 'oui-fetch: with --json the body needs a file: -o BODY'
expect 'the target is left alone' test "$(cat kept)" = kept
cp stream same
timeout 20 oui-fetch --ring ring --uri "$asked" -o same same 2>said
expect 'a body over its own stream' test $? -eq 2
expect 'the stream is left alone' cmp -s stream same
timeout 20 oui-fetch --ring ring --uri "$asked" -o /dev/full stream 2>said
expect 'a body that takes nothing' test $? -eq 2 -a "$(cat said)" = 'oui-fetch: /dev/full: No space left on device (os error 28)'
oui-fetch --help >said
expect 'help' grep -q '^usage: oui-fetch' said

# Whether it is the whole show. With three fields about the end the last word is complete, and without them closed, which says so
not_checked='whether the show is complete was not checked: the stream has none of Digest, X-Ouinet-Data-Size and X-Ouinet-Sig1'
asked=https://example.com/show
oui-sign ring key >ring
printf 'Hello world!' >show
for ends in trailer head none; do
    sign key show -o $ends.oui --block-size 5 --id me-1 --ts 1700000000 --ends $ends
    expect "signed with --ends $ends" test $? -eq 0
    case $ends in
        none) word=closed words="closed: 12 bytes in 3 blocks, each verified; $not_checked" ;;
        *) word=complete words='complete: 12 bytes in 3 blocks, each verified, the whole show' ;;
    esac
    for most in 1 2 9 400 6000; do
        oui-relay --seed "$most" --most "$most" <$ends.oui | fetch
        expect "--ends $ends in pieces of $most at most" test "$status" -eq 0 -a "$(cat said)" = "oui-fetch: $words"
        expect "its show with --ends $ends in pieces of $most at most" cmp -s show got
    done
    fetch --json $ends.oui >events
    expect "--ends $ends as JSON" test "$(tail -n 1 events)" = '{"event":"'$word'","total":12}'
    expect "a question more with --ends $ends" test "$(grep -c '"question"' events)" -eq "$([ $ends = none ] && echo 4 || echo 5)"
    fetch --require-complete $ends.oui
    if [ $ends = none ]; then
        expect 'closed is a failure where complete is wanted' test "$status" -eq 3 -a "$(cat said)" = \
            "oui-fetch: $words, and that is a failure (--require-complete)"
        fetch --require-complete --quiet $ends.oui
        expect 'quiet about that' test "$status" -eq 3 -a ! -s said
        fetch --require-complete --json $ends.oui >events
        expect 'that as JSON' test "$status" -eq 3 -a "$(tail -n 1 events)" = '{"event":"closed","total":12}'
        fetch_any --require-complete $ends.oui
        expect 'of whatever show' test "$status" -eq 3 -a "$(cat said)" = "oui-fetch: $words, and that is a failure (--require-complete); $taken \`$asked\`"
    else
        expect "complete with --ends $ends, as wanted" test "$status" -eq 0 -a "$(cat said)" = "oui-fetch: $words"
    fi
    expect "what was verified of --ends $ends is there" cmp -s show got
done
expect 'the three in the trailer' test "$(LC_ALL=C sed '1,/^0;ouisig/d' trailer.oui | grep -acE '^(Digest|X-Ouinet-Data-Size|X-Ouinet-Sig1): ')" -eq 3
expect 'which the head announces' grep -aqx $'Trailer: Digest, X-Ouinet-Data-Size, X-Ouinet-Sig1\r' trailer.oui
expect 'the three in the head' test "$(LC_ALL=C sed '/^\r/q' head.oui | grep -acE '^(Digest|X-Ouinet-Data-Size|X-Ouinet-Sig1): ')" -eq 3
expect 'and none in its trailer' test "$(LC_ALL=C sed '1,/^0;ouisig/d' head.oui)" = $'\r'
expect 'none at all' test "$(grep -acE '^(Digest|X-Ouinet-Data-Size|X-Ouinet-Sig1|Trailer): ' none.oui)" -eq 0
: >nothing
for ends in trailer head; do
    sign key nothing --ends $ends | fetch --require-complete
    expect "nothing is a whole show too, --ends $ends" ended 0 'complete: 0 bytes in 0 blocks, each verified, the whole show'
done
head -c 200000 /dev/urandom >large
sign key - --ends head <large | oui-relay --most 3000 | fetch --require-complete
expect 'standard input can be read twice where it is a file' ended 0 'complete: 200000 bytes in 4 blocks'
expect 'and is the show' cmp -s large got
cat large | sign key - --ends head -o none 2>said
expect 'a pipe cannot' test $? -eq 2 -a ! -e none -a "$(cat said)" = \
    'oui-sign: standard input: with --ends head the body is read twice, and this can be read only once; put it into a file'
cat large | sign key - | fetch --require-complete
expect 'for a trailer it can' ended 0 'complete: 200000 bytes in 4 blocks'

# A stream does not go where its show comes from, by whatever name
cp large same
ln same linked
ln -s same pointing
for ends in trailer head; do
    for target in same ./same linked pointing; do
        sign key same --ends $ends -o $target 2>said
        expect "a stream over its own source, $target, --ends $ends" test $? -eq 2 -a "$(cat said)" = \
            "oui-sign: $target: the stream would be written over its own source"
    done
done
sign key - -o same <same 2>said
expect 'or over standard input' test $? -eq 2 -a "$(cat said)" = 'oui-sign: same: the stream would be written over its own source'
cp key before
sign key large -o key 2>said
expect 'nor over its key' test $? -eq 2 -a "$(cat said)" = 'oui-sign: key: the stream would be written over its own key'
expect 'which stays' cmp key before
expect 'the source is left alone' cmp -s large same
sign key large -o /dev/full 2>said
expect 'a stream that cannot be written' test $? -eq 2 -a "$(cat said)" = 'oui-sign: /dev/full: No space left on device (os error 28)'

# Where it is not: the show cut off after a block by someone on its way, who writes an end behind it. The first block's signature is good
signature=$(LC_ALL=C grep -a '^5;ouisig=' trailer.oui | head -n 1 | tr -d '\r' | cut -d = -f 2-)
# shortened TRAILER: the stream with its first block alone and this trailer.
shortened() {
    LC_ALL=C sed '/^\r/q' "${2:-trailer.oui}"
    printf '5\r\nHello\r\n0;ouisig=%s\r\n' "$signature"
    printf '%s' "$1"
}
ends=$(LC_ALL=C sed '1,/^0;ouisig/d' trailer.oui)$'\n'
shortened $'\r\n' >stream
fetch stream
expect 'a shortened show without its end fields' test "$status" -eq 0 -a "$(cat said)" = \
    "oui-fetch: closed: 5 bytes in 1 blocks, each verified; $not_checked"
fetch --require-complete stream
expect 'it is not taken for a whole one' ended 3 'closed: 5 bytes in 1 blocks'
expect 'its verified beginning' test "$(cat got)" = Hello

# too_short NAME: the shortened show with its end fields is refused with 14, whatever is wanted.
too_short() {
    for wanted in --require-complete ''; do
        oui-relay --most 7 <stream | fetch $wanted
        expect "$1 $wanted" told 'refused 14: the show is not complete: the stream gives its length as `12`, and 5 bytes came; the 5 bytes before were verified'
        expect "$1 $wanted: its beginning" test "$(cat got)" = Hello
    done
}
shortened "$ends" >stream
too_short 'a shortened show with its end fields'
shortened $'\r\n' head.oui >stream
too_short 'a shortened show with them in the head'
fetch --json stream >events
expect 'as JSON' test "$(tail -n 1 events)" = '{"event":"refused","number":14,"meaning":"these are not the bytes of the whole show: the stream gives '\
'another length than theirs","at":null,"stream_offset":null}'

# at_end NUMBER WORDS SED..: the whole stream with an edit is refused at its end, when all of the body is out.
at_end() {
    local number=$1 words=$2
    shift 2
    LC_ALL=C sed "$@" trailer.oui >stream
    oui-relay --most 50 <stream | fetch --require-complete
    told "refused $number: $words; the 12 bytes before were verified" && cmp -s show got && ! cmp -s stream trailer.oui
}
all='and all three or none must be there'
expect 'no digest' at_end 13 "the stream has X-Ouinet-Data-Size and X-Ouinet-Sig1 but no Digest, $all" '/^Digest:/d'
expect 'a digest alone' at_end 13 "the stream has Digest but no X-Ouinet-Data-Size and no X-Ouinet-Sig1, $all" '/^X-Ouinet-Data-Size:/d;/^X-Ouinet-Sig1:/d'
expect 'a digest twice' at_end 13 'the stream has Digest twice, in the trailer' '/^Digest:/p'
expect 'a digest in the head too' at_end 13 'the stream has Digest twice, in the head and in the trailer' '2s/^/digest: x\r\n/'
expect 'another hash' at_end 13 'Digest is not SHA-256= and 44 characters of base64: `MD5=x`' 's/^Digest: .*/Digest: MD5=x\r/'
expect 'another case' at_end 13 'Digest is not SHA-256= and 44 characters of base64: `sha-256=wFNeS+K3n/2TKRMFQ2v4iTFOSj+uwF7P/Lt98xrZ5Ro=`' 's/^Digest: SHA/Digest: sha/'
expect 'a zero before the size' at_end 13 'X-Ouinet-Data-Size is not a number of 1 to 10 digits without zeros before it: `012`' 's/^X-Ouinet-Data-Size: /&0/'
expect 'eleven digits' at_end 13 'X-Ouinet-Data-Size is not a number of 1 to 10 digits without zeros before it: `12000000000`' 's/^X-Ouinet-Data-Size: 12/&000000000/'
expect 'a control byte in a size' at_end 13 'X-Ouinet-Data-Size is not a number of 1 to 10 digits without zeros before it: `1\x092`' \
    's/^X-Ouinet-Data-Size: 12/X-Ouinet-Data-Size: 1\t2/'
expect 'a byte beyond ASCII in a size' at_end 13 'X-Ouinet-Data-Size is not a number of 1 to 10 digits without zeros before it: `1\xff2`' \
    's/^X-Ouinet-Data-Size: 12/X-Ouinet-Data-Size: 1\xff2/'
expect 'another list' at_end 13 'the names that X-Ouinet-Sig1 signs are not those of X-Ouinet-Sig0 and then digest and x-ouinet-data-size' \
    's/ digest x-ouinet-data-size"/ x-ouinet-data-size digest"/'
expect 'another writing' at_end 13 'X-Ouinet-Sig1 is not written as X-Ouinet-Sig0 is' 's/^X-Ouinet-Sig1: keyId/X-Ouinet-Sig1: keyID/'
expect 'another size' at_end 14 'the show is not complete: the stream gives its length as `13`, and 12 bytes came' 's/^X-Ouinet-Data-Size: 12/X-Ouinet-Data-Size: 13/'
expect 'a smaller size' at_end 14 'this is more than the show: the stream gives its length as `5`, and 12 bytes came' 's/^X-Ouinet-Data-Size: 12/X-Ouinet-Data-Size: 5/'
expect 'a size beyond 32 bits' at_end 14 'the show is not complete: the stream gives its length as `4294967308`, and 12 bytes came' \
    's/^X-Ouinet-Data-Size: 12/X-Ouinet-Data-Size: 4294967308/'
expect 'another digest' at_end 15 'these are not the bytes of the whole show: the stream gives another SHA-256 than that of the 12 that came' 's/SHA-256=w/SHA-256=x/'
expect 'another key' at_end 12 "the show's end is signed with another key: X-Ouinet-Sig1 has another than X-Ouinet-Sig0" \
    "/^X-Ouinet-Sig1/s|$(cut -c 1-43 ring)|$(oui-sign ring other | cut -c 1-43)|"
expect 'another time' at_end 10 "the signature over the show's end, X-Ouinet-Sig1, is wrong: the stream was changed on its way, or not signed with this key" \
    '/^X-Ouinet-Sig1/s/created=1700000000/created=1700000001/'
fetch --json stream >events
expect 'a wrong signature at the end as JSON' grep -q '^{"event":"refused","number":10,' events
LC_ALL=C sed 's/SHA-256=w/SHA-256=x/' trailer.oui | fetch --json >events
expect 'another digest as JSON' test "$(tail -n 1 events)" = '{"event":"refused","number":15,"meaning":"these are not the bytes of the whole show: the '\
'stream gives another SHA-256 than theirs","at":null,"stream_offset":null}'
LC_ALL=C sed '/^Digest:/d' trailer.oui | fetch --json >events
expect 'no digest as JSON' test "$(tail -n 1 events)" = '{"event":"refused","number":13,"meaning":"the fields about the show'"'"'s end are wrong: Digest, '\
'X-Ouinet-Data-Size and X-Ouinet-Sig1 do not all stand there once and well written","at":null,"stream_offset":null}'
# From another show of as many bytes, signed with the same key: its end is not this one's
printf 'Hello earth!' >earth
sign key earth -o earth.oui --block-size 5 --id me-1 --ts 1700000000
{ LC_ALL=C sed '/^0;ouisig/q' trailer.oui; LC_ALL=C sed '1,/^0;ouisig/d' earth.oui; } | fetch
expect 'the end of another show' ended 1 'refused 15: these are not the bytes of the whole show'
for length in $(seq "$(LC_ALL=C sed '/^0;ouisig/q' trailer.oui | wc -c)" 97 $(($(stat -c %s trailer.oui) - 1))); do
    head -c "$length" trailer.oui | fetch --require-complete
    expect "cut off after $length" ended 1 'refused 11: the stream stops before its end; the 12 bytes before were verified'
done
timeout 20 oui-fetch --ring ring --uri "$asked" --require-complete missing 2>said
expect 'no stream that could be complete' test $? -eq 2
oui-fetch --help >said
expect 'its help has every status' test "$(grep -A 1 '^Exit status: ' said)" = 'Exit status: 0 complete, or closed and no byte is known to be missing; 1 refused; 2 a file or a word is no good, or the stream does not fit BODY;
3 closed, and bytes are missing or, with --require-complete, nothing says that none are.'

# The example of the small program, whose answers are given there, without the three fields and with them
cp "$top"/crates/ouiread/data/ring ring
asked=$(cat "$top"/crates/ouiread/data/uri)
{ LC_ALL=C sed '/^0;ouisig/q' "$top"/crates/ouiread/data/stream; printf '\r\n'; } | fetch
expect 'the example' ended 0 'closed: 12 bytes in 3 blocks'
expect 'its body' cmp -s show got
fetch "$top"/crates/ouiread/data/stream
expect 'the example with its end' ended 0 'complete: 12 bytes in 3 blocks'
expect 'the same body' cmp -s show got

tell
