#!/bin/sh
# Usage: tests/second/answers.sh PROGRAM
# The MT509 that document 003 prints, as printed and mended (tests/samples/answers-*.txt), with LF and with CR LF: PROGRAM, which
# list.c became, says of each what the stored table says, alone and in a batch; and so many are accepted after each mending as the
# page of request A3 counts.
set -eu
program=$(cd "$(dirname "$1")" && pwd)/$(basename "$1")
cd "$(dirname "$0")/../samples"
work=$(mktemp -d)
trap 'rm -rf "$work"' EXIT
cr=$(printf '\r')

fail() {
    echo "$1"
    exit 1
}

# The table without its headings and reasons; it has every message once, in the order of the files.
awk '!/^#/ && NF { print $1, $2, $3, $4, $5, $6, $7, $8 }' answers-table.txt > "$work/table"
[ -z "$(cut -d ' ' -f 1 "$work/table" | sort | uniq -d)" ] || fail 'a name comes twice in the table'

for ending in LF CRLF; do
    : > "$work/alone"
    : > "$work/listed"
    for file in answers-printed.txt answers-mended.txt; do
        if [ $ending = LF ]; then cat "$file"; else sed "/^# /!s/\$/$cr/" "$file"; fi > "$work/in"
        "$program" --mt509 < "$work/in" >> "$work/alone"
        "$program" --mt509 --twice < "$work/in"
        # the rows of the list, each behind the name of its message
        sed '/^# /d' "$work/in" | "$program" --mt509 --lister |
            awk 'NR == FNR { if ($1 == "#") name[++n] = $2; next } FNR > 1 { $1 = name[FNR - 1]; print }' "$file" - >> "$work/listed"
    done
    diff "$work/table" "$work/alone" || fail "$ending: the table <, the second program >"
    diff "$work/table" "$work/listed" || fail "$ending: the table <, the list of answers >"
done

# accepted STATE..: how many of the samples are accepted in one of these states
accepted() {
    awk -v states=" $* " '
        NR <= 83 { base = $1; state = "printed" }
        NR > 83 { base = $1; sub(/-(filled|password-line|first-reference)$/, "", base); state = substr($1, length(base) + 2) }
        $2 == 0 && index(states, " " state " ") && !(base in good) { good[base]; n++ }
        END { print n + 0 }' "$work/alone"
}
[ "$(grep -c '^# ' answers-printed.txt)" -eq 83 ] || fail 'not 83 samples'
counts="$(accepted printed) $(accepted printed filled) $(accepted printed filled password-line)"
counts="$counts $(accepted printed filled password-line first-reference)"
[ "$counts" = '35 61 63 78' ] || fail "accepted by mending: $counts"
echo "samples of document 003: 83 MT509, accepted as printed, filled in, with the password line, with one reference: $counts"
