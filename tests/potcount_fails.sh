#!/bin/sh
# potcount where reading or writing fails: sh tests/potcount_fails.sh POTCOUNT
# It says so on standard error, once, and ends; what was interrupted is tried again.
set -u
potcount=$1
tests=$(dirname "$0")
work=$(mktemp -d)
trap 'rm -rf "$work"' EXIT
failed=0

# run [WORD..]: a run, behind some words if need be: what it said, and its status (124 where it did not end within ten seconds).
run() {
    timeout 10 "$@" "$potcount" 2> "$work/said"
    echo $? > "$work/status"
}

# expect CASE STATUS SAID: the last run ended so, and said just that line (nothing where it is empty).
expect() {
    if [ "$(cat "$work/status")" != "$2" ] || [ "$(cat "$work/said")" != "$3" ]; then
        echo "$1: expected status $2 and '$3', got status $(cat "$work/status") and:"
        cat "$work/said"
        failed=1
    fi
}

# expect_answers CASE FILE: the last run wrote what the file has.
expect_answers() {
    cmp "$work/answers" "$2" || { echo "$1: other answers"; failed=1; }
}

# Several pieces of input, so that a run that went on would fail again.
yes E 2> /dev/null | head -n 200000 > "$work/lines"
printf 'S 10 101 37 5 16\nA 1 9\nE' > "$work/evening"
printf 'K 0 0\nK 0 9\nE exact 9\n' > "$work/right"
: > "$work/nothing"

run < "$work/lines" > /dev/full
expect 'a full disk' 0 'potcount: writing failed: No space left on device'

run < "$work/evening" > /dev/full
expect 'a full disk at the end' 0 'potcount: writing failed: No space left on device'

run < / > "$work/answers"
expect 'a directory' 0 'potcount: reading failed: Is a directory'
expect_answers 'a directory' "$work/nothing"

run <&- > "$work/answers"
expect 'no input' 0 'potcount: reading failed: Bad file descriptor'

run < "$work/lines" >&-
expect 'no output' 0 'potcount: writing failed: Bad file descriptor'

# Nobody reads on: the system ends potcount by a signal (128 + SIGPIPE). Where the signal is ignored, potcount ends by itself.
closed='potcount: writing failed: Broken pipe'
yes E 2> /dev/null | run | head -n 1 > /dev/null
if [ "$(cat "$work/status")" = 0 ]; then
    expect 'a closed pipe, the signal ignored from outside' 0 "$closed"
else
    expect 'a closed pipe' 141 ''
fi
trap '' PIPE
{ sleep 0.2; cat "$work/lines"; } 2> /dev/null | run | true
expect 'a closed pipe, the signal ignored' 0 "$closed"
trap - PIPE

cc -shared -fPIC -O1 -Wall -Wextra -Werror -o "$work/trouble.so" "$tests/trouble.c"
run env LD_PRELOAD="$work/trouble.so" < "$work/evening" > "$work/answers"
expect 'interrupted' 0 ''
expect_answers 'interrupted' "$work/right"

# The last line has no newline, and might have gone on: it isn't answered.
run env LD_PRELOAD="$work/trouble.so" BREAKS_OFF=1 < "$work/evening" > "$work/answers"
expect 'broken off' 0 'potcount: reading failed: Input/output error'
head -n 2 "$work/right" > "$work/before"
expect_answers 'broken off' "$work/before"

[ "$failed" = 0 ] && echo 'potcount where reading or writing fails: as expected'
exit "$failed"
