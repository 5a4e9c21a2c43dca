#!/bin/sh
# The edges of the desk's lister: nothing, document 01's sample, 65,536 bytes and one more, as many messages as fit, input that
# comes in parts. What it prints is what stands here, and is byte for byte what the second program's lister prints.
set -eu
cd "$(dirname "$0")/.."
work=$(mktemp -d)
trap 'rm -rf "$work"' EXIT

lister=$(bin/program lister)
cc -std=c11 -Wall -Wextra -Werror -O2 tests/second/second.c tests/second/list.c -o "$work/list"

heading='MSG CODE LINE KIND MAST BUYR SELL'
edges=0

# edge NAME BYTES ROWS FIRST LAST: the input is in $work/in and has so many bytes; what is printed has so many rows behind its
# first line, and this first and this last line.
edge() {
    [ "$(wc -c <"$work/in")" -eq "$2" ] || fail "$1" "the input has $(wc -c <"$work/in") bytes and not $2"
    bin/run-x86 "$lister" <"$work/in" >"$work/first" || fail "$1" "the lister ends with status $?"
    "$work/list" --lister <"$work/in" >"$work/second" || fail "$1" "the second program ends with status $?"
    cmp "$work/first" "$work/second" || fail "$1" 'the two listers differ'
    [ "$(wc -l <"$work/first")" -eq $(($3 + 1)) ] || fail "$1" "there are $(wc -l <"$work/first") lines and not $(($3 + 1))"
    [ "$(head -n 1 "$work/first")" = "$4" ] || fail "$1" "the first line is $(head -n 1 "$work/first")"
    [ "$(tail -n 1 "$work/first")" = "$5" ] || fail "$1" "the last line is $(tail -n 1 "$work/first")"
    edges=$((edges + 1))
}

fail() { # NAME WHAT
    echo "$1: $2"
    exit 1
}

# Document 01's message B is the first of the example's batch.
sed -n '1,30p' examples/day.batch >"$work/B"

: >"$work/in"
edge 'nothing' 0 0 "$heading" "$heading"

{ cat "$work/B" && printf 'X\n-\n'; } >"$work/in"
edge 'the sample of document 01' 471 2 "$heading" '2 4 2 - - - -'
sed -n 2p "$work/first" | grep -qx '1 0 0 INST 0017 0017 0015' || fail 'the sample of document 01' 'its message is not listed'

{ cat "$work/B" && echo; } >"$work/in"
edge 'an empty line behind the last message' 468 2 "$heading" '2 3 1 - - - -'

{ cat "$work/B" && printf -- '-'; } >"$work/in"
edge 'a last line without its ending' 468 2 "$heading" '2 3 1 - - - -'

printf -- '-\r\r\n-\r\n' >"$work/in"
edge 'two CRs before an LF end no message' 7 1 "$heading" '1 2 1 - - - -'

yes - | head -n 32768 >"$work/in"
edge '32,768 messages, 65,536 bytes' 65536 32768 "$heading" '32768 4 1 - - - -'

echo >>"$work/in"
edge 'one byte more' 65537 0 'TOO LONG' 'TOO LONG'

head -c 65536 /dev/zero >"$work/in"
edge 'one message of 65,536 bytes' 65536 1 "$heading" '1 1 0 - - - -'

head -c 65537 /dev/zero >"$work/in"
edge 'one message of 65,537 bytes' 65537 0 'TOO LONG' 'TOO LONG'

head -c 3000000 /dev/zero >"$work/in"
edge 'far too long' 3000000 0 'TOO LONG' 'TOO LONG'

# 140 times B is 65,380 bytes; a line of 156 fills it up.
{ for i in $(seq 140); do cat "$work/B"; done && printf '%0155d\n' 0; } >"$work/in"
edge 'accepted messages up to the last bytes' 65536 141 "$heading" '141 3 1 - - - -'
[ "$(grep -c ' 0 0 INST 0017 0017 0015$' "$work/first")" -eq 140 ] || fail 'accepted messages' 'not all are listed'

# The same input by a pipe, in three parts.
{ head -c 300 "$work/in" && sleep 0.1 && tail -c +301 "$work/in" | head -c 40000 && sleep 0.1 && tail -c +40301 "$work/in"; } |
    bin/run-x86 "$lister" | cmp - "$work/first" || fail 'input in parts' 'it is listed otherwise'

echo "ok, $((edges + 1)) edges of the lister"
