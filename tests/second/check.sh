#!/bin/sh
# check.sh - builds the second program and holds it against what document 01 prints:
# B, the lister's example, "B and its neighbours"; then writing, and generated messages.
# Then by the pool's profile against what the page of request A1 prints: P, and its worked cases; and of the MT509 against what
# the page of request A3 prints: R, its worked cases, and what becomes of the samples of document 003.
# usage: check.sh [SEED COUNT]   (further generated messages; without: seed 1, 2700, the whole list of near misses)
set -eu
cd "$(dirname "$0")"
work=$(mktemp -d)
trap 'rm -rf "$work"' EXIT
flags="-std=c11 -Wall -Wextra -Werror"
safe="-g -O1 -fsanitize=address,undefined -fno-sanitize-recover=all"
# the second program takes no memory from the heap, so none can leak; the search for leaks takes seconds at every program's end
export ASAN_OPTIONS=detect_leaks=0
# build PROGRAM SOURCE..
build() { cc $flags $safe -o "$@" 2>/dev/null || cc $flags -O2 -o "$@"; }
build "$work/list-checked" second.c list.c
build "$work/records-checked" second.c bytes.c cases.c records.c

b() { cat <<'B'

0017
515/000/GSCC
MBSCTRRS
:16R:GENL
:20C::SEME//0008
:23G:NEWM
:22F::TRTR/GSCC/CASH
:16R:LINK
:20C::MAST//0017
:16S:LINK
:16S:GENL
:16R:CONFDET
:98C::TRAD//20240229093000
:98A::SETT//20240313
:90A::DEAL//PRCT/99,50
:22H::BUSE//BUYI
:22F::PROC/GSCC/INST
:22H::PAYM//APMT
:16R:CONFPRTY
:95R::SELL/GSCC/PART0015
:16S:CONFPRTY
:16R:CONFPRTY
:95R::BUYR/GSCC/PART0017
:16S:CONFPRTY
:36B::CONF//FAMT/0001000000,
:35B:/US/01F070633
:70E::TPRO//GSCC/TDSVSTIP
:16S:CONFDET
-
B
}

# one NAME SED WANTED: B changed by a sed script, and what list must print behind the name
one() { { echo "# $1"; b | sed "$2"; } >> "$work/in"; echo "$1 $3" >> "$work/want"; }
good="INST 0017 0017 0015 99,5 1000000,"
none="- - - - - -"
cr=$(printf '\r')

one B '' "0 0 $good"
one B-CRLF "s/\$/$cr/" "0 0 $good"
one B-some-CRLF "1,12s/\$/$cr/" "0 0 $good"
one MAST-17 '10s/0017/17/' "0 0 INST 17 0017 0015 99,5 1000000,"
one MAST-15 '10s/0017/15/' "0 0 INST 15 0017 0015 99,5 1000000,"
one price-0017 '16s/99,50/0017,/' "0 0 INST 0017 0017 0015 17, 1000000,"
one par-0017 '26s/0001000000,/0017,/' "0 0 INST 0017 0017 0015 99,5 17,"
for line in 16 26; do
    one "amount-comma-$line" "${line}s|T/[0-9,]*|T/,|" "11 $line $none"
    one "amount-17-$line" "${line}s|T/[0-9,]*|T/17|" "11 $line $none"
    one "amount-1,2,-$line" "${line}s|T/[0-9,]*|T/1,2,|" "11 $line $none"
    one "amount-fifteen-$line" "${line}s|T/[0-9,]*|T/123456789012345,|" "11 $line $none"
done
one price-fourteen '16s/99,50/12345678901234,/' "0 0 INST 0017 0017 0015 12345678901234, 1000000,"
one par-fourteen '26s/0001000000,/99999999999999,/' "0 0 INST 0017 0017 0015 99,5 99999999999999,"
one price-0 '16s/99,50/0,/' "0 0 INST 0017 0017 0015 0, 1000000,"
one par-0,000 '26s/0001000000,/0,000/' "16 0 $none"
one trade-20000229 '14s/20240229/20000229/' "0 0 $good"
one trade-20230229 '14s/20240229/20230229/' "12 14 $none"
one trade-19000229 '14s/20240229/19000229/' "12 14 $none"
one without-11 '11d' "6 11 $none"
one without-27 '27d' "9 27 $none"
one exchanged-14-15 '14{h;d};15{G}' "9 14 $none"
one second-MAST '11a\
:16R:LINK\
:20C::MAST//0018\
:16S:LINK' "8 13 $none"
one SETT-20240229 '15s/20240313/20240229/' "0 0 $good"
one SETT-20240228 '15s/20240313/20240228/' "17 0 $none"
one SEME-16 '6s/0008/ABCDEFGHIJKLMNOP/' "0 0 $good"
one SEME-17 '6s/0008/ABCDEFGHIJKLMNOPQ/' "10 6 $none"
up='4a\
'
down='
'
for n in 1 2 3 4 5 6 7 8; do up="$up:16R:N$n\\
"; down=":16S:N$n\\
$down"; done
one eight-levels "$up$(printf '%s' "$down" | sed '$d' | sed '$s/\\$//')" "8 5 $none"
one nine-levels "$up:16R:N9\\
:16S:N9\\
$(printf '%s' "$down" | sed '$d' | sed '$s/\\$//')" "7 13 $none"
# how it is read (docs/DECISIONS.md)
one hyphen-then-X '$a\
X' "3 30 $none"
one hyphen-then-empty '$a\
\
' "3 30 $none"
one hyphen-twice '$a\
-' "3 30 $none"
one only-hyphen '1,29d' "4 1 $none"
one header-and-hyphen '5,29d' "9 5 $none"
one without-CONFDET '13,29d' "9 13 $none"

"$work/list-checked" < "$work/in" > "$work/got"
diff "$work/want" "$work/got"
echo "B and its neighbours: $(wc -l < "$work/want") as printed"
"$work/list-checked" --twice < "$work/in"
echo "B and its neighbours: plain form, write, field and batch agree"

# the lister's example, its ends
{ b; printf 'X\n-\n'; } | "$work/list-checked" --lister > "$work/lister"
printf 'MSG CODE LINE KIND MAST BUYR SELL\n1 0 0 INST 0017 0017 0015\n2 4 2 - - - -\n' | diff - "$work/lister"
test "$("$work/list-checked" --lister < /dev/null)" = "MSG CODE LINE KIND MAST BUYR SELL"
test "$(head -c 65537 /dev/zero | "$work/list-checked" --lister)" = "TOO LONG"
test "$(head -c 65536 /dev/zero | "$work/list-checked" --lister | tail -1)" = "1 1 0 - - - -"
echo "lister: as printed; heading for nothing, TOO LONG from 65,537 bytes"

# B's fields: their texts, by offset and length in B itself
b > "$work/b"
{ echo '# B'; b; } | "$work/list-checked" --fields | tr ' ' '\n' | sed 1d | while IFS=: read -r offset length; do
    dd if="$work/b" bs=1 skip="$offset" count="$length" 2>/dev/null; echo
done > "$work/fields"
printf '%s\n' 0008 NEWM '' 0017 '' '' 20240229093000 20240313 99,50 BUYI INST 0017 '' '' 0015 '' '' 0001000000, 01F070633 '' TDSVSTIP | diff - "$work/fields"
echo "fields of B: as numbered"

# B's plain form
{ echo '# B'; b | sed -n '1,19p' ; b | sed -n '23,25p'; b | sed -n '20,22p'; b | sed -n '26,30p'; } |
    sed "2,\$s/\$/$cr/; s/99,50/99,5/; s/0001000000/1000000/" > "$work/plain"
{ echo '# B'; b; } | "$work/list-checked" --plain | cmp - "$work/plain"
echo "plain form of B: as by the four rules"

python3 pool.py P > "$work/p"
python3 mt509.py R > "$work/r"
"$work/records-checked" "$work/p" "$work/r"
echo "writing: every refusal, the order of refusals, the widest of each kind (718 770 822 699), of the pool's (648 752 752 682 700 700)"
echo "writing: R's record changed as the page of A3 says, 20000 generated records and 6000 messages of the MT509, its widest (1476 551 550)"

seed=${1:-1} count=${2:-2700}
mkdir "$work/files"
python3 make.py "$seed" "$count" "$work/files"
for f in "$work/files"/*; do "$work/list-checked" < "$f"; done > "$work/generated"
awk -f want.awk "$work/generated"
for f in "$work/files"/*; do "$work/list-checked" --twice < "$f"; done
echo "generated: plain form, write, field and batch agree"

# the pool: P and every worked case, with LF and with CR LF; B by the pool, and P by our own
python3 pool.py > "$work/worked"
{ cat "$work/worked"; echo '# B,want=4@3'; b; } | "$work/list-checked" --pool | awk -f want.awk
{ echo '# P,want=4@3'; cat "$work/p"; } | "$work/list-checked" | awk -f want.awk
"$work/list-checked" --pool --twice < "$work/worked"
echo "P and its worked cases: as printed; plain form, write, field and batch agree"

# P with CR LF: its length, its fields by offset and length and by their texts, its plain form
sed "s/\$/$cr/" "$work/p" > "$work/p-crlf"
test "$(wc -c < "$work/p-crlf")" -eq 580
{ echo '# P'; cat "$work/p-crlf"; } | "$work/list-checked" --pool --fields | tr ' ' '\n' | sed 1d > "$work/stretches"
for field in 1:55:4 4:0:0 5:0:0 9:248:4 12:403:4 13:0:0 14:347:4 15:0:0 17:463:9 19:535:26; do
    test "${field%%:*}:$(sed -n "${field%%:*}p" "$work/stretches")" = "$field"
done
while IFS=: read -r offset length; do
    dd if="$work/p-crlf" bs=1 skip="$offset" count="$length" 2>/dev/null; echo
done < "$work/stretches" > "$work/fields"
printf '%s\n' 0008 NEWM 0017 '' '' 20240229000000 20240313 99,50 0,00 BUYI INST 0017 '' 0015 '' 0001000000, 01F070633 123456 \
    TDSVPOOL/CDRY/DDTE20240313 | diff - "$work/fields"
echo "fields of P: as printed"

{ sed -n '1,20p' "$work/p"; sed -n '24,26p' "$work/p"; sed -n '21,23p' "$work/p"; sed -n '27,34p' "$work/p"; } |
    sed "s/\$/$cr/; s/99,50/99,5/; s/USD0,00/USD0,/; s/0001000000/1000000/" > "$work/plain"
test "$(wc -c < "$work/plain")" -eq 574
for p in "$work/p" "$work/p-crlf"; do
    { echo '# P'; cat "$p"; } | "$work/list-checked" --pool --plain | sed 1d | cmp - "$work/plain"
done
echo "plain form of P: as by the four rules, 574 bytes"

"$work/list-checked" --pool --plain < "$work/worked" |
    LC_ALL=C awk '/^# / { name = $2; next } name ~ /^widest/ { bytes[name] += length($0) + 1 }
        END { for (n in bytes) { split(n, part, "-"); tried++; if (bytes[n] != part[4]) exit 1 } exit tried != 12 }'
echo "widest messages of the pool: as long as printed"

# the MT509: R and every worked case, with LF, with CR LF and mixed; B and P as MT509, and R by both profiles of the MT515
python3 mt509.py > "$work/answers"
{ cat "$work/answers"; echo '# B,want=4@2'; b; echo '# P,want=4@2'; cat "$work/p"; } | "$work/list-checked" --mt509 | awk -f want.awk
for profile in '' --pool; do
    { echo '# R,want=4@3'; cat "$work/r"; } | "$work/list-checked" $profile | awk -f want.awk
done
"$work/list-checked" --mt509 --twice < "$work/answers"
echo "R and its worked cases: as printed; plain form, write, field and batch agree"

# R with CR LF: its length, its fields by offset and length and by their texts, its plain form
sed "s/\$/$cr/" "$work/r" > "$work/r-crlf"
test "$(wc -c < "$work/r-crlf")" -eq 396
{ echo '# R'; cat "$work/r-crlf"; } | "$work/list-checked" --mt509 --fields | tr ' ' '\n' | sed 1d > "$work/stretches"
for field in 1:55:8 4:167:4 6:127:4 7:207:11 11:248:10 12:287:4 13:305:9 14:354:4 15:0:0 31:0:0; do
    test "${field%%:*}:$(sed -n "${field%%:*}p" "$work/stretches")" = "$field"
done
while IFS=: read -r offset length; do
    dd if="$work/r-crlf" bs=1 skip="$offset" count="$length" 2>/dev/null; echo
done < "$work/stretches" > "$work/fields"
printf '%s\n' RTTM0005 INST 20240229093001 0017 '' 0008 000001-1306 '' '' '' IPRC//REJT E001 GSCC/MDRJ E016 \
    '' '' '' '' '' '' '' '' '' '' '' '' '' '' '' '' '' | diff - "$work/fields"
echo "fields of R: as printed"

{ sed -n '1,8p' "$work/r"; sed -n '12,14p' "$work/r"; sed -n '9,11p' "$work/r"; sed -n '15,29p' "$work/r"; } | sed "s/\$/$cr/" > "$work/plain"
test "$(wc -c < "$work/plain")" -eq 396
for r in "$work/r" "$work/r-crlf"; do
    { echo '# R'; cat "$r"; } | "$work/list-checked" --mt509 --plain | sed 1d | cmp - "$work/plain"
done
echo "plain form of R: as by the two rules, 396 bytes"

"$work/list-checked" --mt509 --plain < "$work/answers" |
    LC_ALL=C awk '/^# / { name = $2; next } name ~ /^widest/ { bytes[name] += length($0) + 1 }
        END { for (n in bytes) { split(n, part, "-"); tried++; if (bytes[n] != part[4]) exit 1 } exit tried != 18 }'
echo "widest MT509: as long as printed"

# the list of answers: R, what is no message, an issuer, no LINK; its ends; and batches, a hundred of the worked cases each, of
# which every message is answered as by itself
heading='MSG CODE LINE STATUS MAST LIST RELA REASONS'
{ cat "$work/r"; printf 'X\n-\n'; sed '9,17d; 19s|.*|:25D::IPRC/GSCC/MODA|; 20,26d' "$work/r"; } |
    "$work/list-checked" --mt509 --lister > "$work/lister"
printf '%s\n' "$heading" '1 0 0 IPRC/REJT 0017 000001-1306 0008 E001,E016' '2 4 2 - - - - -' '3 0 0 IPRC/MODA - - - -' | diff - "$work/lister"
test "$("$work/list-checked" --mt509 --lister < /dev/null)" = "$heading"
test "$(head -c 65537 /dev/zero | "$work/list-checked" --mt509 --lister)" = "TOO LONG"
test "$(head -c 65536 /dev/zero | "$work/list-checked" --mt509 --lister | tail -1)" = "1 1 0 - - - - -"
mkdir "$work/batches"
awk -v folder="$work/batches" '/^# / { n++ } { print > (folder "/" int((n - 1) / 100)) }' "$work/answers"
for batch in "$work/batches"/*; do
    { echo "$heading"; "$work/list-checked" --mt509 < "$batch" | awk '{ $1 = NR; print }'; } > "$work/alone"
    sed '/^# /d' "$batch" | "$work/list-checked" --mt509 --lister | diff "$work/alone" -
done
echo "list of answers: as asked for; heading for nothing, TOO LONG from 65,537 bytes; in a batch as alone"

./answers.sh "$work/list-checked"
