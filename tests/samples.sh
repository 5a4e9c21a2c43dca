#!/bin/sh
# The messages of tests/samples, with LF and with CR LF: the desk's lister, the second program and a stored table, which was
# worked out by hand from document 01, say the same of each: number, line, kind, MAST, buyer and seller.
set -eu
cd "$(dirname "$0")/.."
work=$(mktemp -d)
trap 'rm -rf "$work"' EXIT
samples='tests/samples/printed.txt tests/samples/mended.txt tests/samples/made.txt'

lister=$(bin/program lister)
cc -std=c11 -Wall -Wextra -Werror -O2 tests/second/second.c tests/second/list.c -o "$work/list"

# The table without its headings and reasons; it has every message once, in the order of the files.
awk '!/^#/ && NF { print $1, $2, $3, $4, $5, $6, $7 }' tests/samples/table.txt >"$work/table"
cut -d ' ' -f 1 "$work/table" >"$work/names"
cat $samples | sed -n 's/^# //p' | diff "$work/names" - || {
    echo 'the table < and the files > have not the same names'
    exit 1
}
twice=$(sort "$work/names" | uniq -d)
[ -z "$twice" ] || {
    echo "a name comes twice: $twice"
    exit 1
}

# agree WHAT WANTED GOT: the table's rows and a program's.
agree() {
    diff "$2" "$3" || {
        echo "$1: the table <, the program >"
        exit 1
    }
}

# Puts each message's name, from a file of them, before its row of what a lister prints.
named() { # FILE
    awk 'NR == FNR { if ($1 == "#") name[++n] = $2; next } FNR == 1 { print; next } { print name[FNR - 1], $0 }' "$1" -
}

# What a lister must print of a file.
wanted() { # FILE
    echo 'MSG CODE LINE KIND MAST BUYR SELL'
    awk 'NR == FNR { name = $1; sub(/^[^ ]* /, ""); row[name] = $0; next } $1 == "#" { print ++n, row[$2] }' "$work/table" "$1"
}

cr=$(printf '\r')
for file in $samples; do
    wanted "$file" | named "$file" >"$work/wanted"
    for ending in LF CRLF; do
        sed '/^# /d' "$file" >"$work/batch"
        [ $ending = LF ] || sed -i "s/\$/$cr/" "$work/batch"
        bin/run-x86 "$lister" <"$work/batch" | named "$file" >"$work/got"
        agree "$file, $ending, the lister" "$work/wanted" "$work/got"
        "$work/list" --lister <"$work/batch" | named "$file" >"$work/got"
        agree "$file, $ending, the second program's lister" "$work/wanted" "$work/got"
    done
done

# Each message by itself, and not cut from a batch; price and par, which the table does not have, as the second program has them.
vectors=$(bin/program vectors)
cat $samples | "$work/list" >"$work/second"
cut -d ' ' -f 1-7 "$work/second" >"$work/got"
agree 'the second program, message by message' "$work/table" "$work/got"
cat $samples | "$work/list" --twice
for file in $samples; do
    bin/run-x86 "$vectors" <"$file"
done | diff "$work/second" - || {
    echo 'message by message: the second program <, the reader >'
    exit 1
}

accepted=$(awk '$2 == 0' "$work/table" | wc -l)
echo "ok, $(wc -l <"$work/table") messages, $accepted of them accepted, are answered as in the table"
