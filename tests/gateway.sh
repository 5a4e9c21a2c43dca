#!/bin/sh
# The C entries, called by C programs that link the static library: tests/gateway.c, tests/pool.c and tests/mt509.c, and the
# examples: those of the MT515 each on its batch, that of the MT509 on the samples of document 003. The desk's sheet is true of the
# pool's messages, and the desk's lister, which is the MT515's, refuses every one of them.
set -eu
cd "$(dirname "$0")/.."
work=$(mktemp -d)
trap 'rm -rf "$work"' EXIT

library=$(bin/archive)
for test in gateway pool mt509; do
    bin/cc-x86 -o "$work/$test" -std=c11 -Wall -Wextra -Werror -O2 -Iinclude "tests/$test.c" "$library"
    bin/run-x86 "$work/$test"
done

# It keeps nothing between calls and takes no memory: it has no data that can change, and needs of C only what copies and fills.
nm "$library" >"$work/names"
grep -q ' T mt515_read$' "$work/names"
grep -q ' T pool_read$' "$work/names"
grep -q ' T mt509_read$' "$work/names"
awk 'NF >= 2 && $(NF-1) ~ /^[BbCDdGgSsU]$/ && $NF !~ /^mem(cpy|move|set|cmp)$/ { print "the library has", $0; bad = 1 } END { exit bad }' "$work/names"
echo 'the library has no data that can change, and calls nothing but memcpy and its like'

# The example's number and line of each message; and its plain forms are their own plain forms.
examples/gateway.sh examples/day.batch "$work/plain" >"$work/said"
grep '^message' "$work/said" | sed 's/[a-z:]*//g; s/,//; s/  */ /g; s/^ //' >"$work/numbers"
diff - "$work/numbers" <<'END'
1 0 0
2 0 0
3 0 0
4 0 0
5 0 0
6 17 0
7 12 14
8 9 27
9 14 0
10 6 11
11 11 26
12 4 2
13 0 0
END
examples/gateway.sh "$work/plain" "$work/again" >"$work/said"
cmp "$work/plain" "$work/again"
[ "$(grep -c 'number 0, line 0' "$work/said")" -eq 6 ]

# The rows of the pool's example. Message 14 is an MT515.
examples/pool.sh >"$work/rows"
diff - "$work/rows" <<'END'
MSG CODE LINE KIND MAST BUYR SELL MONEY
1 0 0 INST 0017 0017 0015 0,00
2 0 0 INST REF010 0017 0015 1004312,5
3 0 0 INST 0018 0017 0015 -
4 0 0 CANC 0017 0017 0015 0,00
5 0 0 MDFC 0019 0017 0015 0002531640,20
6 0 0 TDDK NONREF 0017 0015 -
7 0 0 TDDK - 0017 A1B2 100000,
8 0 0 CDRQ REF010 0017 0015 1004312,5
9 0 0 CDRL REF010 0017 0015 0,
10 12 32 - - - - -
11 10 32 - - - - -
12 11 17 - - - - -
13 10 17 - - - - -
14 4 3 - - - - -
15 13 0 - - - - -
16 14 0 - - - - -
17 15 0 - - - - -
18 8 8 - - - - -
19 9 32 - - - - -
20 17 0 - - - - -
21 0 0 MDFC MASTER1234567890 0017 A1B2 00000000000000,
END

# The lister takes the MT515 among them, and gives 4 at 3 to all others.
lister=$(bin/program lister)
bin/run-x86 "$lister" <examples/pool.batch >"$work/list"
awk 'NR == 1 { print "MSG CODE LINE KIND MAST BUYR SELL"; next } { print $1, $1 == 14 ? "0 0 INST 0017 0017 0015" : "4 3 - - - -" }' "$work/rows" |
    diff - "$work/list"

# The rows of the answers' example on its own batch are those of the desk's list, which README.md prints.
examples/answers.sh >"$work/answers"
sed -n '/^    MSG CODE LINE STATUS /,/^$/s/^    //p' README.md | diff - "$work/answers" || {
    echo 'README.md < and the rows of examples/answers.sh > differ'
    exit 1
}

# And on the samples of document 003, as printed and mended: the stored table has them in the same order, a name for the count.
for ending in '' "$(printf '\r')"; do
    sed "/^# /d; s/\$/$ending/" tests/samples/answers-printed.txt tests/samples/answers-mended.txt >"$work/samples.batch"
    examples/answers.sh "$work/samples.batch" >"$work/answers"
    { echo 'MSG CODE LINE STATUS MAST LIST RELA REASONS'
      awk '!/^#/ && NF { print ++n, $2, $3, $4, $5, $6, $7, $8 }' tests/samples/answers-table.txt; } | diff - "$work/answers" || {
        echo 'of the samples the table < and the list of answers > differ'
        exit 1
    }
done

# Of the desk's sheet: the first block between ~~~ is P, and each later one a change to it, with `The pool's list says` behind it.
# All changed messages are one batch, after P itself.
python3 - "$work" <<'PYTHON'
import re, sys
sheet = open('docs/NUMBERS.md', encoding='utf-8').read()
blocks = re.findall(r'^~~~\n(.*?)^~~~\n(?:\nThe pool\'s list says `(\d+ \d+)`)?', sheet, re.M | re.S)
lines = {}
for line in blocks[0][0].splitlines():
    number, text = re.fullmatch(r' ?(\d+)(?:  (.*))?', line).groups()
    lines[int(number)] = [text or '']
P = [text[0] for text in lines.values()]
assert P == open('examples/pool.batch').read().splitlines()[:34], 'the sheet has another message'
with open(sys.argv[1] + '/sheet.batch', 'w') as batch, open(sys.argv[1] + '/sheet.want', 'w') as want:
    batch.writelines(text + '\n' for text in P)
    want.write('0 0\n')
    for block, says in blocks[1:]:
        assert says, 'nothing is said of ' + block
        message = dict(lines)
        for change in block.splitlines():
            number, plus, text = re.fullmatch(r' ?(\d+)(?:(\+) ?|  )(.*)', change).groups()
            number = int(number)
            message[number] = message[number] + [text] if plus else [] if text == '(left out)' else [text]
        batch.writelines(text + '\n' for number in sorted(message) for text in message[number])
        want.write(says + '\n')
PYTHON
examples/pool.sh "$work/sheet.batch" | awk 'NR > 1 { print $2, $3 }' | diff "$work/sheet.want" - || {
    echo 'of the pool the sheet < and its list > differ'
    exit 1
}
echo "ok, the C entries and the examples answer as they should, and $(($(wc -l <"$work/sheet.want") - 1)) examples of the sheet in the pool"
