#!/usr/bin/env bash
# include/ouinet_reader.h as C and as C++, in an old and in a new edition of each; then the program tests/header.c over the proved
# library, with the example stream in pieces of one byte and of 4,096, without and with the fields about its end and as a part answer, and with forged
# states.
set -uo pipefail
cd "$(dirname "$0")/.."
. scripts/counting

work=$(mktemp -d)
trap 'rm -rf "$work"' EXIT

# compile NAME COMPILER..: the header by itself, with no warning.
compile() {
    check "the header as $1" "${@:2}" -Wall -Wextra -Wpedantic -Werror -Iinclude -fsyntax-only "$work/alone"
}

printf '#include <ouinet_reader.h>\n#include <ouinet_reader.h>\nint main(void) { return 0; }\n' >"$work/alone"
compile C99 gcc -std=c99 -x c
compile C17 gcc -std=c17 -x c
compile C++98 g++ -std=c++98 -x c++
compile C++20 g++ -std=c++20 -x c++

# program: tests/header.c over the library
program() {
    scripts/library && gcc -std=c99 -Wall -Wextra -Werror -O1 -Iinclude -o "$work/header" tests/header.c target/staticlib/libreader_export.a
}
if ! program; then
    add 'tests/header.c was not built'
    tell
    exit 1
fi

data=crates/ouiread/data
for piece in 1 4096; do
    last=$("$work/header" "$data/stream" "$data/ring" "$data/uri" crates/ouiread/stdout "$piece" | tee /dev/stderr | tail -n 1)
    add "$last" || echo "FAILED: pieces of $piece: the program ended without its count"
done

tell
