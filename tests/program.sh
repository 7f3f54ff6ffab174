#!/usr/bin/env bash
# What ouiread says: the lines of paper 01's example without and with the fields about its end, and of document 000's part answer, whole; and
# beside the events the lines on standard error, exactly as docs/INTERFACE.md has them, and the files that may be pipes. (tests/compare.sh has the malformed files.)
set -uo pipefail
cd "$(dirname "$0")/.."
. scripts/counting
scripts/program || exit 1

ouiread=$PWD/target/bin/ouiread
work=$(mktemp -d)
trap 'rm -rf "$work"' EXIT
cp crates/ouiread/data/* "$work" && cp crates/ouiread/stdout "$work/ten" && cd "$work" || exit 1
# The example up to its trailer; without the fields about its end, and the nine lines of paper 01; with them, and the ten lines
cp stream whole
LC_ALL=C sed '/^0;ouisig=/q' whole >front
LC_ALL=C sed '1,/^0;ouisig=/d' whole >ends
{ cat front; printf '\r\n'; } >stream
{ head -n 8 ten; echo 'closed 12'; } >nine
printf 'yyyyy\n' >five
mkdir folder
ln -s /proc/self/mem unreadable # opens, and its first read fails
head -n 3 nine >three
: >nothing

# expect NAME EVENTS COMPLAINT: what the last command wrote must be the events in a file, and on standard error the complaint, as one
# line, or nothing where it is empty.
expect() {
    if ! check "$1" wrote "$2" "$3"; then
        sed 's/^/  out: /' out
        sed 's/^/  err: /' err
    fi
}

# wrote EVENTS COMPLAINT: whether it did.
wrote() {
    cmp -s "$1" out && [ "$(cat err)" = "$2" ] && [ "$(wc -l <err)" -eq "$([ -z "$2" ] && echo 0 || echo 1)" ]
}

# bare ARGUMENTS..: ouiread, with what it writes in out and err.
bare() {
    timeout 20 "$ouiread" "$@" >out 2>err
}

# run ARGUMENTS..: the same, asked for by the example's URI.
run() {
    bare "$@" --uri uri
}

# The example, and the example with its end
run stream ring answers
expect 'the example' nine ''
run whole ring five
expect 'the example with its end' ten ''
for length in 1 2 3 5 64 1000 65536; do
    echo "$length" >cuts
    run whole ring five cuts body
    expect "with its end, in pieces of $length" ten ''
    check "its body, in pieces of $length" test "$(cat body)" = 'Hello world!'
done
rm cuts body
# all_in_head: the example with the three fields in the head, and an empty trailer.
all_in_head() {
    sed '/^\r/,$d' stream
    grep -E '^(Digest|X-Ouinet-Data-Size|X-Ouinet-Sig1):' ends
    sed -n '/^\r/,$p' stream
}
all_in_head >in-head
run in-head ring five
expect 'with its end in the head' ten ''
{ cat ten; echo 'tally blocks 3 bytes 12 closed 1 refused 0'; } >counted
run whole ring five --tally
expect 'complete counts as closed' counted ''
head -n 9 ten >unanswered
printf 'yyyy\n' >four
run whole ring four
expect 'no answer to the last question' unanswered ''
{ cat unanswered; echo 'refused 10'; echo 'tally blocks 3 bytes 12 closed 0 refused 1'; } >counted
printf 'yyyyn\n' >last-no
run whole ring last-no --tally
expect 'a no to the last question' counted ''
{ head -n 8 ten; echo 'refused 11'; } >stopped
for length in $(seq "$(wc -c <front)" 41 $(($(wc -c <whole) - 1))); do
    head -c "$length" whole >wrong
    run wrong ring five
    expect "cut off after $length" stopped ''
done

# Document 000's part answer, `bytes 5-11/12`, with the fields about the end in its head as it prints them, made of the example: the second half of
# the show, whose first line has the hash of the block before it
hash=NhX4DJ0pPtdAJof5SyLVjlKbjMeRb4+sf933+9WvTPd309eVp6AKFr9+fz+5Vh7puq5IDan+ehh2nnGIawPzFQ==
part_of() {
    sed '/^\r/,$d' whole | sed "s/^HTTP.*/HTTP\/1.1 206 Partial Content\r/; /^Trailer:/d"
    grep -E '^(Digest|X-Ouinet-Data-Size|X-Ouinet-Sig1):' ends
    printf 'Content-Range: %s\r\nX-Ouinet-HTTP-Status: 200\r\n\r\n' "$1"
    printf '5;ouihash=%s\r\n worl\r\n' "$hash"
    LC_ALL=C sed -n '/^2;ouisig=/,/^0;ouisig=/p' whole
    printf '\r\n'
}
part_of 'bytes 5-11/12' >part
printf 'yyy\n' >yeses
printf '%s\n' 'question 219' 'head 206' 'question 83' 'block 5 5' 'question 84' 'block 10 2' 'closed 7' >seven
run part ring yeses
expect "document 000's part answer" seven ''
for length in 1 3 1000; do
    echo "$length" >cuts
    run part ring yeses cuts body
    expect "the part, in pieces of $length" seven ''
    check "its bytes, in pieces of $length" test "$(cat body)" = ' world!'
done
rm cuts body
{ cat seven; echo 'tally blocks 2 bytes 7 closed 1 refused 0'; } >counted
run part ring yeses --tally
expect 'the tally of a part' counted ''
echo 'refused 4' >four-only
for range in 'bytes 5-10/12' 'bytes 6-11/12' 'bytes 5-12/12' 'bytes 5-11/*' 'bytes 05-11/12' 'Bytes 5-11/12' 'bytes  5-11/12' 'bytes 5-9/12, 10-11/12'; do
    part_of "$range" >wrong
    run wrong ring yeses
    expect "a range of $range" four-only ''
done

# in_part NAME LINES REFUSAL SED..: the part edited gives the first so many lines, and then a refusal.
in_part() {
    local name=$1 count=$2 refusal=$3
    shift 3
    LC_ALL=C sed "$@" part >wrong
    { head -n "$count" seven; echo "refused $refusal"; } >refused
    run wrong ring yeses
    expect "$name" refused ''
}
in_part 'no status of the whole answer' 0 4 '/^X-Ouinet-HTTP-Status:/d'
in_part '206 as the status of the whole answer' 0 4 's/^X-Ouinet-HTTP-Status: 200/X-Ouinet-HTTP-Status: 206/'
in_part 'two ranges' 0 4 '/^Content-Range:/p'
in_part 'a first line without its hash' 2 8 's/^5;ouihash=.*/5\r/'
in_part 'a hash of 87 characters' 2 6 's/^5;ouihash=N/5;ouihash=/'
in_part 'the hash on a later line' 2 8 "s/^2;ouisig=.*/2;ouihash=$hash\r/"
in_part 'a 0 line first' 2 7 's/^5;ouihash/0;ouihash/'
in_part 'a chunk past the range' 2 7 's/^2;ouisig/3;ouisig/'
in_part 'a 0 line before the last byte' 2 7 's/^2;ouisig/0;ouisig/'
LC_ALL=C sed "s/^5\r/5;ouihash=$hash\r/" stream >wrong
{ head -n 2 nine; echo 'refused 8'; } >refused
run wrong ring answers
expect 'a hash in a whole answer' refused ''
sed 's/^\(Date:\)/Content-Range: bytes x\r\nContent-Range: y\r\nX-Ouinet-HTTP-Status: 404\r\n\1/' stream >plain
run plain ring answers
expect 'both fields in a whole answer' nine ''

# at_end NAME REFUSAL SED..: the example with its end edited gives all blocks, and then is refused, without a place.
at_end() {
    local name=$1 refusal=$2
    shift 2
    { cat front; sed "$@" ends; } >wrong
    { head -n 8 ten; echo "refused $refusal"; } >refused
    run wrong ring five --where
    expect "$name" refused ''
}
at_end 'no digest' 13 '/^Digest:/d'
at_end 'a digest alone' 13 '/^X-Ouinet/d'
at_end 'a size twice' 13 '/^X-Ouinet-Data-Size:/p'
at_end 'another hash' 13 's/SHA-256=/MD5=/'
at_end 'a hash in small letters' 13 's/SHA-256=/sha-256=/'
at_end 'spare bits' 13 's/5Ro=/5Rp=/'
at_end 'a size of eleven digits' 13 's/: 12\r/: 12345678901\r/'
at_end 'a size with a zero before it' 13 's/: 12\r/: 012\r/'
at_end 'another list' 13 's/ digest x-Ouinet-data-size/ x-Ouinet-data-size digest/'
at_end 'a wrong signature field' 13 's/^X-Ouinet-Sig1:.*/X-Ouinet-Sig1: x\r/'
at_end 'another size' 14 's/: 12\r/: 13\r/'
at_end 'a size beyond 32 bits' 14 's/: 12\r/: 4294967308\r/'
at_end 'another digest' 15 's/SHA-256=w/SHA-256=x/'
at_end 'another size and another digest' 14 's/: 12\r/: 13\r/;s/SHA-256=w/SHA-256=x/'
at_end 'another key' 12 's/ed25519=bt/ed25519=bu/'
at_end 'another key and another digest' 15 's/ed25519=bt/ed25519=bu/;s/SHA-256=w/SHA-256=x/'

# An empty body is a whole one, too
{ sed '/^\r/q' stream; printf '0\r\n'; sed 's/: 12\r/: 0\r/;s|SHA-256=.*\r|SHA-256=47DEQpj8HBSa+/TImW+5JCeuQeRkm5NMpJWZG3hSuFU=\r|' ends; } >empty
printf 'question 219\nhead 200\nquestion 302\ncomplete 0\n' >lines
run empty ring five
expect 'an empty show' lines ''

usage='usage: ouiread STREAM RING ANSWERS [CUTS [BODY]] --uri FILE [--tally] [--where]'
run stream ring
expect 'two arguments' nothing "$usage"
run stream ring answers cuts body more
expect 'six arguments' nothing "$usage"

run stream ring --tally
expect 'two arguments and the tally' nothing "$usage"
run stream ring answers --wher
expect 'an unknown option' nothing "$usage"
run stream ring answers --where --where
expect 'an option twice' nothing "$usage"
run stream ring answers --tally --where --tally
expect 'an option twice, with another between' nothing "$usage"
run stream ring answers --where cuts
expect 'an option before a file' nothing "$usage"
run --where stream ring answers
expect 'an option before all files' nothing "$usage"

# The URI asked for
bare stream ring answers
expect 'no URI' nothing "$usage"
bare stream ring answers cuts body --where --tally
expect 'no URI, with other options' nothing "$usage"
bare stream ring answers --uri
expect 'a URI without its file' nothing "$usage"
bare stream ring answers --tally --uri
expect 'a URI without its file, after another option' nothing "$usage"
bare stream ring answers --uri uri --uri uri
expect 'a URI twice' nothing "$usage"
bare stream ring answers --uri uri --where --uri uri
expect 'a URI twice, with another option between' nothing "$usage"
bare stream ring answers --uri uri cuts
expect 'a URI before a file' nothing "$usage"
bare --uri uri stream ring answers
expect 'a URI before all files' nothing "$usage"
bare stream ring --uri uri
expect 'a URI and too few files' nothing "$usage"
{ cat nine; echo 'tally blocks 3 bytes 12 closed 1 refused 0'; } >counted
for words in '--uri uri --where' '--where --uri uri'; do
    bare stream ring answers $words
    expect "$words" nine ''
done
for words in '--uri uri --tally' '--tally --uri uri' '--where --uri uri --tally' '--tally --where --uri uri' '--uri uri --tally --where'; do
    bare stream ring answers $words
    expect "$words" counted ''
done
for name in --tally --uri --where -- -; do
    cp uri ./"$name"
    bare stream ring answers --uri "$name"
    expect "a URI in a file called $name" nine ''
done
bare stream ring answers --uri --where --where
expect 'a file called as the option after it' nine ''
rm -- --tally --uri --where -- -
for lack in 'missing: No such file or directory' 'folder: Is a directory' 'unreadable: cannot be read'; do
    bare stream ring answers --uri "${lack%%:*}"
    expect "URI ${lack%%:*}" nothing "$lack"
done
timeout 20 cat uri | bare stream ring answers --uri /dev/stdin
expect 'a URI from standard input' nine ''

echo 'refused 16' >other
# another NAME ASKED: the URI in the file `asked` is refused, and told in these words of it.
another() {
    bare stream ring answers --uri asked
    expect "asked for $1" other "this is another show: asked for \`$2\`, got \`https://example.com/hello\`"
}
for asked in https://example.com/other https://example.com/hell https://example.com/hello/ https://example.com/Hello 'https://example.com/hello ' \
    ' https://example.com/hello' u ''; do
    printf '%s' "$asked" >asked
    another "'$asked'" "$asked"
done

# What is not printable is escaped, and so is what could pass for the end of a quotation
{ cat uri; echo; } >asked
another 'it and a line feed' 'https://example.com/hello\x0a'
printf 'https://example.com/hello\r\n\t' >asked
another 'it, CR LF and a tab' 'https://example.com/hello\x0d\x0a\x09'
printf '\033[2J\0\377\177~ ' >asked
another 'control bytes' '\x1b[2J\x00\xff\x7f~ '
printf '%s' 'north`, got `south\x60' >asked
another 'a quotation within it' 'north\x60, got \x60south\\x60'

# times TEXT COUNT: the text so many times.
times() {
    local text
    printf -v text "%$2s" ''
    printf '%s' "${text// /"$1"}"
}

# 100 bytes are shown, however many characters they become
{ cat uri; times x 75; } >asked
another 'a hundred bytes' "https://example.com/hello$(times x 75)"
{ cat uri; times x 76; } >asked
another 'a hundred and one bytes' "https://example.com/hello$(times x 75)..."
{ cat uri; head -c 1000000 /dev/zero | tr '\0' x; } >asked
another 'a million bytes' "https://example.com/hello$(times x 75)..."
head -c 1000000 /dev/zero >asked
another 'a million zero bytes' "$(times '\x00' 100)..."

# late NAME ASKED GOT SHOWN SHOWN: a URI is asked for, the head has another, and so much is shown of both: what they begin with alike is cut.
late() {
    printf '%s' "$2" >asked
    sed "s|^X-Ouinet-URI: .*\r|X-Ouinet-URI: $3\r|" stream >wrong
    bare wrong ring answers --uri asked
    expect "$1" other "this is another show: asked for \`$4\`, got \`$5\`"
}
late 'ones that differ in byte 100' "$(times x 99)s" "$(times x 99)n" "$(times x 99)s" "$(times x 99)n"
late 'ones that differ in byte 101' "$(times x 100)s" "$(times x 100)n" "...$(times x 40)s" "...$(times x 40)n"
late 'one that goes on' "$(times x 101)" "$(times x 100)" "...$(times x 41)" "...$(times x 40)"
late 'one that ends' "$(times x 100)" "$(times x 101)" "...$(times x 40)" "...$(times x 41)"
late '40 bytes alike' "$(times x 40)s" "$(times x 101)" "$(times x 40)s" "$(times x 100)..."
late '41 bytes alike' "$(times x 41)s" "$(times x 101)" "...$(times x 40)s" "...$(times x 100)"
late 'both ends cut' "$(times x 6000)s$(times y 59)" "$(times x 6000)n$(times y 60)" "...$(times x 40)s$(times y 59)" "...$(times x 40)n$(times y 59)..."
zeros=$(printf '%030000d' 0)
late 'ones that differ after 30,000 bytes' "${zeros}s" "${zeros}n" "...${zeros:0:40}s" "...${zeros:0:40}n"
printf 'refused 16\ntally blocks 0 bytes 0 closed 0 refused 1\n' >counted
printf north >asked
bare stream ring nothing --tally --uri asked --where
expect 'another show in the tally' counted 'this is another show: asked for `north`, got `https://example.com/hello`'

# order NAME REFUSAL: what the stream in `wrong` is refused with where another URI was asked for, and so no more is said.
order() {
    echo "refused $2" >refused
    bare wrong ring answers --uri asked
    expect "another URI and $1" refused ''
}
sed 's/^X-Ouinet-Version: 4/X-Ouinet-Version: 5/' stream >wrong
order 'version 5' 5
sed 's/ content-type"/ content-type nowhere"/' stream >wrong
order 'a bad list' 4
sed 's/^X-Ouinet-URI: .*\r/X-Ouinet-URI:\r/' stream >wrong
order 'an empty one in the head' 4
sed '/^X-Ouinet-URI: /p' stream >wrong
order 'two in the head' 3
sed 's/^X-Ouinet-URI: .*\r/X-Ouinet-URI: \t north \t\r/' stream >wrong
bare wrong ring nothing --uri asked
check 'blanks in the head do not count' eval '[[ $(cat out) == "question "* ]] && [ ! -s err ]'
: >no-ring
bare stream no-ring answers --uri uri
echo 'refused 12' >refused
expect 'an untrusted key' refused ''
bare stream no-ring answers --uri asked
expect 'an untrusted key and another URI' other 'this is another show: asked for `north`, got `https://example.com/hello`'

echo 5 >cuts
{ cat nine; echo 'tally blocks 3 bytes 12 closed 1 refused 0'; } >counted
run stream ring answers --tally
expect 'the tally after three arguments' counted ''
run stream ring answers cuts body --tally
expect 'the tally after five arguments' counted ''
printf 'question 219\nrefused 10\ntally blocks 0 bytes 0 closed 0 refused 1\n' >counted
echo n >no
run stream ring no --tally
expect 'a refusal in the tally' counted ''
printf 'question 219\ntally blocks 0 bytes 0 closed 0 refused 0\n' >counted
run stream ring nothing --tally
expect 'no answer in the tally' counted ''

# went_wrong NAME EVENTS REFUSAL: the stream in `wrong` must give so many of the nine events and then the refusal, with its place where --where asks
# for it, and else without.
went_wrong() {
    { head -n "$2" nine; echo "refused $3"; } >placed
    run wrong ring answers --where
    expect "$1: where" placed ''
    { head -n "$2" nine; echo "refused ${3% at *}"; } >placed
    run wrong ring answers
    expect "$1: without the option" placed ''
}
printf 'HTTP/1.1 20\r\n\r\n' >wrong
went_wrong 'a status of two digits' 0 '3 at 11'
head -c 33000 /dev/zero | tr '\0' x >wrong
went_wrong 'a head without its end' 0 '3 at 32768'
sed 's/^5\r$/000000005\r/' stream >wrong
went_wrong 'a size of nine digits' 2 '6 at 8'
sed 's/^Hello\r$/Hello\r\r/' stream >wrong
went_wrong 'a data end without its line feed' 2 '6 at 1'
sed 's/^Digest:/Digest/' whole >wrong
went_wrong 'a trailer without a colon' 8 '6 at 6'
sed 's/^X-Ouinet-Version: 4/X-Ouinet-Version: 5/' stream >wrong
went_wrong 'a refusal that has no place' 0 5

# Heads and trailers as long as they may be, in pieces as they come and in single bytes
echo 1 >ones
# read_whole NAME: the stream in `long` gives the nine events.
read_whole() {
    run long ring answers
    expect "$1" nine ''
    run long ring answers ones
    expect "$1, in single bytes" nine ''
}
# head_length FILE: how many bytes the head of a stream has.
head_length() {
    LC_ALL=C sed '/^\r/q' "$1" | wc -c
}
# with_head LENGTH: the example with a field more, which makes its head so long.
with_head() {
    sed "1s/\$/\nFill:$(printf "%0$(($1 - $(head_length stream) - 7))d" 0)\r/" stream
}
for length in 8192 8193 32767 32768; do
    with_head "$length" >long
    check "the head has $length bytes" test "$(head_length long)" -eq "$length"
    read_whole "a head of $length bytes"
done
for length in 32769 40000; do
    with_head "$length" >wrong
    went_wrong "a head of $length bytes" 0 '3 at 32768'
done
# with_fields COUNT: the example, which has nine fields, with so many.
with_fields() {
    sed "1s/\$/$(for i in $(seq $(($1 - 9))); do printf '\\nF%d: x\\r' "$i"; done)/" stream
}
for count in 65 128; do
    with_fields "$count" >long
    read_whole "$count fields"
done
with_fields 129 >wrong
went_wrong '129 fields' 0 "3 at $(head_length wrong)"
# with_trailer TEXT..: the example with this trailer, by printf.
with_trailer() {
    cat front
    printf "$@"
}
for length in 8193 32768; do
    with_trailer 'A:%0*d\r\n\r\n' $((length - 6)) 0 >long
    read_whole "a trailer of $length bytes"
done
with_trailer 'A:%0*d\r\n\r\n' $((32769 - 6)) 0 >wrong
went_wrong 'a trailer of 32,769 bytes' 8 '6 at 32768'
{ with_trailer ''; for i in $(seq 200); do printf 'A: b\r\n'; done; printf '\r\n'; } >long
read_whole 'a trailer of 200 fields'

printf 'question 219\nrefused 10\ntally blocks 0 bytes 0 closed 0 refused 1\n' >counted
run stream ring no --where --tally
expect 'both options' counted ''
run stream ring no cuts --tally --where
expect 'both options, the other way round' counted ''
run stream ring answers --where
expect 'no refusal' nine ''

for file in stream ring answers cuts; do
    echo 5 >cuts
    for lack in 'missing: No such file or directory' 'folder: Is a directory' 'unreadable: cannot be read'; do
        arguments=(stream ring answers cuts)
        for i in "${!arguments[@]}"; do
            [ "${arguments[i]}" != "$file" ] || arguments[i]=${lack%%:*}
        done
        run "${arguments[@]}"
        expect "$file ${lack%%:*}" nothing "$lack"
    done
done

echo key >bad
run stream bad answers
expect 'a ring that is none' nothing \
    'bad: line 1: a record is a key in base64 and its first and last second, one space between; at most 16'
printf 'y\nyes\n' >bad
run stream ring bad
expect 'answers that are none' nothing 'bad: line 2: an answer is y or n'
printf '5\n65537\n' >bad
run stream ring answers bad
expect 'a cut that is too long' nothing 'bad: line 2: a piece length is a number from 0 to 65536; at most 4096, and not all 0'

run stream ring answers cuts folder
expect 'a body that is a folder' nothing 'folder: Is a directory'
run stream ring answers cuts /dev/full
expect 'a body that takes nothing' three '/dev/full: cannot be written'
timeout 20 "$ouiread" stream ring answers --uri uri >/dev/full 2>err
: >out
expect 'events that cannot be written' nothing 'standard output: cannot be written'
timeout 20 "$ouiread" stream ring answers --tally --uri uri >/dev/full 2>err
expect 'events and a tally that cannot be written' nothing 'standard output: cannot be written'

mkfifo pipe
timeout 20 cat stream >pipe &
run pipe ring answers
expect 'a stream from a named pipe' nine ''
timeout 20 cat stream | run /dev/stdin ring answers
expect 'a stream from standard input' nine ''
{ printf y; sleep 0.2; printf 'y\n y'; sleep 0.2; echo y; } | run stream ring /dev/stdin
expect 'answers that come late' nine ''
printf 'y\n?' | run stream ring /dev/stdin
expect 'a wrong answer in a pipe' three '/dev/stdin: line 2: an answer is y or n'
run stream ring answers cuts body
expect 'a body' nine ''
printf 'Hello world!' | cmp -s - body && : >out || echo 'another body' >out
expect 'its bytes' nothing ''

tell
