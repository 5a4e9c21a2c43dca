#!/bin/sh
# The desk's list of answers: its edges (nothing, 65,536 bytes and one more, as many messages as fit, the longest rows, input that comes in
# parts), the example's batch, the MT509 of document 003 as printed and mended, and the worked cases of request A3. What it prints is what
# stands here or in a stored table, and is byte for byte what the second program's list of answers prints.
set -eu
cd "$(dirname "$0")/.."
work=$(mktemp -d)
trap 'rm -rf "$work"' EXIT

answers=$(bin/program answers)
cc -std=c11 -Wall -Wextra -Werror -O2 tests/second/second.c tests/second/list.c -o "$work/list"

heading='MSG CODE LINE STATUS MAST LIST RELA REASONS'
cr=$(printf '\r')
edges=0

fail() { # NAME WHAT
    echo "$1: $2"
    exit 1
}

# both NAME: the input is in $work/in; what both programs print of it is in $work/first.
both() {
    bin/run-x86 "$answers" <"$work/in" >"$work/first" || fail "$1" "the program ends with status $?"
    "$work/list" --mt509 --lister <"$work/in" >"$work/second" || fail "$1" "the second program ends with status $?"
    cmp "$work/first" "$work/second" || fail "$1" 'the two lists differ'
}

# edge NAME BYTES ROWS FIRST LAST: the input has so many bytes; what is printed has so many rows behind its first line, and this first
# and this last line.
edge() {
    [ "$(wc -c <"$work/in")" -eq "$2" ] || fail "$1" "the input has $(wc -c <"$work/in") bytes and not $2"
    both "$1"
    [ "$(wc -l <"$work/first")" -eq $(($3 + 1)) ] || fail "$1" "there are $(wc -l <"$work/first") lines and not $(($3 + 1))"
    [ "$(head -n 1 "$work/first")" = "$4" ] || fail "$1" "the first line is $(head -n 1 "$work/first")"
    [ "$(tail -n 1 "$work/first")" = "$5" ] || fail "$1" "the last line is $(tail -n 1 "$work/first")"
    edges=$((edges + 1))
}

# R of request A3 is the first of the example's batch.
sed -n '1,29p' examples/answers.batch >"$work/R"
row='IPRC/REJT 0017 000001-1306 0008 E001,E016'

: >"$work/in"
edge 'nothing' 0 0 "$heading" "$heading"

{ cat "$work/R" && printf 'X\n-\n'; } >"$work/in"
edge 'R, and a piece that is none' 371 2 "$heading" '2 4 2 - - - - -'
sed -n 2p "$work/first" | grep -qx "1 0 0 $row" || fail 'R' 'it is not listed'

{ cat "$work/R" && echo; } >"$work/in"
edge 'an empty line behind the last message' 368 2 "$heading" '2 3 1 - - - - -'

{ cat "$work/R" && printf -- '-'; } >"$work/in"
edge 'a last line without its ending' 368 2 "$heading" '2 3 1 - - - - -'

sed -n '1,30p' examples/day.batch >"$work/in"
edge 'an MT515' 467 1 "$heading" '1 4 2 - - - - -'

yes - | head -n 32768 >"$work/in"
edge '32,768 messages, 65,536 bytes' 65536 32768 "$heading" '32768 4 1 - - - - -'

echo >>"$work/in"
edge 'one byte more' 65537 0 'TOO LONG' 'TOO LONG'

head -c 65536 /dev/zero >"$work/in"
edge 'one message of 65,536 bytes' 65536 1 "$heading" '1 1 0 - - - - -'

head -c 65537 /dev/zero >"$work/in"
edge 'one message of 65,537 bytes' 65537 0 'TOO LONG' 'TOO LONG'

head -c 3000000 /dev/zero >"$work/in"
edge 'far too long' 3000000 0 'TOO LONG' 'TOO LONG'

# 178 times R is 65,326 bytes; a line of 210 fills it up.
{ for i in $(seq 178); do cat "$work/R"; done && printf '%0209d\n' 0; } >"$work/in"
edge 'accepted messages up to the last bytes' 65536 179 "$heading" '179 3 1 - - - - -'
[ "$(grep -c " 0 0 $row\$" "$work/first")" -eq 178 ] || fail 'accepted messages' 'not all are listed'

# The same input by a pipe, in three parts.
{ head -c 300 "$work/in" && sleep 0.1 && tail -c +301 "$work/in" | head -c 40000 && sleep 0.1 && tail -c +40301 "$work/in"; } |
    bin/run-x86 "$answers" | cmp - "$work/first" || fail 'input in parts' 'it is listed otherwise'
edges=$((edges + 1))

# The example's list stands in README.md.
cp examples/answers.batch "$work/in"
both 'the example'
sed -n "/^    $heading\$/,/^\$/s/^    //p" README.md | diff - "$work/first" || fail 'the example' 'README.md < and the list > differ'

# The MT509 of document 003, with LF and with CR LF; the table was worked out by hand. The rows have the names of the messages for their count.
awk '!/^#/ && NF { print $1, $2, $3, $4, $5, $6, $7, $8 }' tests/samples/answers-table.txt >"$work/table"
for ending in LF CRLF; do
    : >"$work/listed"
    for file in tests/samples/answers-printed.txt tests/samples/answers-mended.txt; do
        sed '/^# /d' "$file" >"$work/in"
        [ $ending = LF ] || sed -i "s/\$/$cr/" "$work/in"
        both "$file, $ending"
        awk 'NR == FNR { if ($1 == "#") name[++n] = $2; next } FNR > 1 { $1 = name[FNR - 1]; print }' "$file" "$work/first" >>"$work/listed"
    done
    diff "$work/table" "$work/listed" || fail "document 003, $ending" 'the table < and the list > differ'
done

# The worked cases of request A3 and their neighbours: as many as a batch has room for at a time, cut behind a message.
python3 tests/second/mt509.py | sed '/^# /d' >"$work/cases"
LC_ALL=C awk -v to="$work/part" '
    BEGIN { n = 0 }
    { bytes += length($0) + 1; lines = lines $0 "\n" }
    /^-\r?$/ { if (size + bytes > 60000) { close(to n); n++; size = 0 } printf "%s", lines >(to n); size += bytes; bytes = 0; lines = "" }' "$work/cases"
for part in "$work"/part*; do
    cp "$part" "$work/in"
    both 'the worked cases'
    grep -q 'TOO LONG' "$work/first" && fail 'the worked cases' 'a part of them is too long'
    rows=$((${rows:-0} + $(wc -l <"$work/first") - 1))
done

echo "ok, $edges edges of the list of answers, $(wc -l <"$work/table") messages of document 003 and $rows worked cases"
