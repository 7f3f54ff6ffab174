#!/usr/bin/env bash
# A body of 64 MiB goes through ouiread in the memory that one of 1 MiB takes. The last byte of each stream is held back while the
# peaks are looked up; by then all of the stream but what the pipe holds has been read. Compared is the most address space, which
# bounds what can be in use and differs from run to run by where the stack starts only; what was resident is shown, and differs by how
# many pages of the mapped files the system has brought in.
set -uo pipefail
cd "$(dirname "$0")/.."
. scripts/counting
scripts/program || exit 1
scripts/cargo-build || exit 1

streams=rust/target/release/streams
work=$(mktemp -d)
trap 'rm -rf "$work"' EXIT

# peak PID NAME: a line of a process's status, in kilobytes.
peak() {
    awk -v name="$2:" '$1 == name { print $2 }' "/proc/$1/status"
}

# through BYTES: sends a stream with a body of so many bytes through ouiread, and sets `space` and `resident` to its peaks.
# Opened for both, the pipe does not wait for the other side; a reader that goes away is met by the time limit.
through() {
    local bytes=$1 reader
    mkfifo "$work/stream"
    "$streams" long-files "$bytes" "$work" || return 1
    exec 3<>"$work/stream"
    target/bin/ouiread "$work/stream" "$work/ring" "$work/answers" "$work/cuts" "$work/body" --uri "$work/uri" >"$work/events" 3>&- &
    reader=$!
    timeout 20 "$streams" long "$bytes" | timeout 20 head -c -1 >&3
    space=$(peak "$reader" VmPeak)
    resident=$(peak "$reader" VmHWM)
    printf '\n' >&3
    exec 3>&-
    wait "$reader"
    rm "$work/stream"
    check "a body of $bytes bytes is closed" test "$(tail -n 1 "$work/events")" = "closed $bytes"
    check "its $bytes bytes are released" test "$(wc -c <"$work/body")" -eq "$bytes"
    check "its peak is known" test "${space:-0}" -gt 0
    echo "a body of $bytes bytes: at most $space kB of address space, $resident kB resident"
}

echo 65536 >"$work/cuts"
through $((1 << 20)) || exit 1
small=${space:-0}
through $((64 << 20)) || exit 1
check 'at most 64 kB more for the larger body' test "${space:-0}" -le $((small + 64))

tell
