#!/usr/bin/env bash
# oui-fetch --continue, killed: a hundred times at random moments, and once at each call by which it changes a file, before it and half way through. After
# every time the body must be a beginning of the show, all of it verified, of which at most the last block is not recorded; and in the end, when it
# has gone on often enough, it must be the show.
set -uo pipefail
shopt -s lastpipe # so that a fetch at the end of a pipe can set its status
cd "$(dirname "$0")/.."
. scripts/counting
. scripts/fetching

kills=100
seed=${KILL_SEED:-$RANDOM}
RANDOM=$seed

# recorded: how many bytes of the body are recorded as verified. Where nothing is recorded, it is not begun, or done.
recorded() {
    if [ -e got.unfinished ]; then
        LC_ALL=C awk '$1 == "verified" && $2 + 0 > most { most = $2 + 0 } END { print most + 0 }' got.unfinished
    elif is_whole; then
        size got
    else
        echo 0
    fi
}

# is_sound: whether what a killed oui-fetch has left is a beginning of the show, of which all but one block at most is recorded.
is_sound() {
    local length=0 recorded
    [ ! -e got ] || length=$(size got)
    [ "$length" -eq 0 ] || cmp -s -n "$length" got show || return
    recorded=$(recorded)
    [ "$recorded" -le "$length" ] && [ "$length" -le $((recorded + block)) ]
}

# rest: the stream from where the body is to go on.
rest() {
    local from
    from=$(range got)
    if [ -n "$from" ]; then oui-sign part stream --from "$from"; else cat stream; fi
}

oui-sign key key >ring

# ---- at random moments

# new_show: another show, and nothing of it there. Its last block is short, so that it can be told from others.
new_show() {
    rm -f got got.*
    block=500
    head -c 60007 /dev/urandom >show
    sign key show -o stream --block-size $block
}

# killed_once: goes on for a moment, and is killed. The status is 0 where it was, 1 where it was done before.
killed_once() {
    rest >part
    oui-relay --seed $RANDOM --most 1200 --pause 1 <part >pipe 2>/dev/null &
    local relay=$! fetch
    oui-fetch --ring ring --uri "$asked" --continue -o got <pipe 2>said &
    fetch=$!
    sleep "0.0$((RANDOM % 90 + 10))"
    kill -9 $fetch 2>/dev/null
    wait $fetch 2>/dev/null
    status=$?
    wait $relay 2>/dev/null
    [ $status -eq 137 ]
}

mkfifo pipe
new_show
count=0 tries=0
while [ $count -lt $kills ] && [ $tries -lt $((3 * kills)) ]; do
    tries=$((tries + 1))
    before=$(recorded)
    if killed_once; then
        count=$((count + 1))
        expect "kill $count of seed $seed: what is left" is_sound
        expect "kill $count of seed $seed: nothing that was there is lost" test "$(recorded)" -ge "$before"
    else
        expect "done after $count kills of seed $seed" test $status -eq 0
        expect "the same after $count kills of seed $seed" is_whole
    fi
    ! is_whole || new_show
done
expect "killed $kills times" test $count -eq $kills
rest | go_on
expect "after $kills kills of seed $seed, it is done" test "$status" -eq 0
expect "after $kills kills of seed $seed, it is the same" is_whole

# ---- at each call that changes a file

gcc -std=c11 -Wall -Wextra -Werror -shared -fPIC -o killer.so "$top/tests/killer.c" -ldl || { add 'tests/killer.c was not built'; tell; exit 1; }

# die_at NUMBER: goes on with the body by the rest of the stream, and is killed at that call.
die_at() {
    rest >part
    # In braces, so that the shell's own word about it is not seen
    { KILL_AT=$1 LD_PRELOAD=$PWD/killer.so oui-fetch --ring ring --uri "$asked" --continue -o got part 2>said; } 2>/dev/null
    status=$?
}

# each_call NAME SETUP LEAST: from what the setup leaves, killed at each call in turn, and then gone on with to the end; there are so many at least.
each_call() {
    local number=2
    while [ $number -lt 400 ]; do
        rm -f got got.*
        $2
        die_at $number
        [ $status -eq 137 ] || break
        expect "$1, killed at call $number / 2" is_sound
        is_whole || rest | go_on
        expect "$1, whole after call $number / 2" is_whole
        number=$((number + 1))
    done
    expect "$1, in the end it is not killed" test "$status" -eq 0 -a $number -gt $3
}

block=5
printf 'Hello world!' >show
sign key show -o stream --block-size 5
begin_nothing() { :; }
begin_first() { oui-sign part stream --from 0 --to 0 | go_on; }
begin_half() { begin_first; printf ' wo' >>got; }
each_call 'from the start' begin_nothing 30
each_call 'from the second block' begin_first 25
each_call 'from half a block' begin_half 25

tell
