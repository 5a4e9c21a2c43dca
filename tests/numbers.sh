#!/bin/sh
# The desk's sheet is true: each example of docs/NUMBERS.md gets what the sheet says, from the lister or the list of answers, and from
# the second program. Those of the pool are in tests/gateway.sh.
set -eu
cd "$(dirname "$0")/.."
work=$(mktemp -d)
trap 'rm -rf "$work"' EXIT

lister=$(bin/program lister)
answers=$(bin/program answers)
cc -std=c11 -Wall -Wextra -Werror -O2 tests/second/second.c tests/second/list.c -o "$work/list"

# The first block of the sheet is the message; each later one is a change to it, with `The list says` behind it. Writes the
# changed messages as 01.in, 02.in and so on, and what the list says of them as 01.want.
python3 - "$work" <<'PYTHON'
import re, sys
sheet = open('docs/NUMBERS.md', encoding='utf-8').read()
blocks = re.findall(r'^```\n(.*?)^```\n(?:\nThe list says `(\d+ \d+)`)?', sheet, re.M | re.S)
lines = {}
for line in blocks[0][0].splitlines():
    number, text = re.fullmatch(r' ?(\d+)(?:  (.*))?', line).groups()
    lines[int(number)] = [text or '']
B = ''.join(text[0] + '\n' for text in lines.values())
assert B.splitlines() == open('examples/day.batch').read().splitlines()[:30], 'the sheet has another message'
said = set()
for i, (block, says) in enumerate(blocks[1:], 1):
    assert says, 'nothing is said of ' + block
    message = dict(lines)
    for change in block.splitlines():
        number, plus, text = re.fullmatch(r' ?(\d+)(?:(\+) ?|  )(.*)', change).groups()
        number, times = int(number), re.fullmatch(r'\((\d+) times\)', text)
        message[number] = (message[number] + [text] if plus else [] if text == '(left out)'
                           else message[number] * int(times[1]) if times else [text])
    with open('%s/%02d.in' % (sys.argv[1], i), 'w', encoding='utf-8') as out:
        out.writelines(text + '\n' for number in sorted(message) for text in message[number])
    with open('%s/%02d.want' % (sys.argv[1], i), 'w') as out:
        out.write('MSG CODE LINE KIND MAST BUYR SELL\n1 %s - - - -\n' % says)
    said.add(int(says.split()[0]))
assert said == set(range(1, 18)), 'not every number from 1 to 17 has an example'
assert all(re.search(r'^(### |\| )%d\b' % n, sheet, re.M) for n in range(1, 22)), 'not every number is explained'
PYTHON

for input in "$work"/*.in; do
    want=${input%.in}.want
    bin/run-x86 "$lister" <"$input" | diff "$want" - && "$work/list" --lister <"$input" | diff "$want" - || {
        echo "the sheet < and a lister > differ on this message:"
        cat "$input"
        exit 1
    }
done

# Of the answers: the first block of four backticks is R, and each later one a change to it, with `The list of answers says` behind it.
# Each is tried with LF and with CR LF.
python3 - "$work" <<'PYTHON'
import re, sys
sheet = open('docs/NUMBERS.md', encoding='utf-8').read()
blocks = re.findall(r'^````answers\n(.*?)^````\n(?:\nThe list of answers says `(\d+ \d+)`)?', sheet, re.M | re.S)
lines = {}
for line in blocks[0][0].splitlines():
    number, text = re.fullmatch(r' ?(\d+)(?:  (.*))?', line).groups()
    lines[int(number)] = [text or '']
said = set()
for i, (block, says) in enumerate(blocks[1:], 1):
    assert says, 'nothing is said of ' + block
    message = {number: list(texts) for number, texts in lines.items()}
    for change in block.splitlines():
        first, last, plus, text = re.fullmatch(r' ?(\d+)(?:-(\d+))?(?:(\+) ?|  )(.*)', change).groups()
        first, last = int(first), int(last or first)
        times, blanks = re.fullmatch(r'\((\d+) times\)', text), re.fullmatch(r'\((\d+) blanks\)', text)
        old = [t for number in range(first, last + 1) for t in message[number]]
        if not plus:
            for number in range(first, last + 1):
                message[number] = []
        message[first] = (old + [text] if plus else [] if text == '(left out)' else old * int(times[1]) if times
                          else [' ' * int(blanks[1])] if blanks else [text])
    for ending, name in ('\n', 'a'), ('\r\n', 'b'):
        with open('%s/%02d%s.answer' % (sys.argv[1], i, name), 'w', encoding='utf-8', newline='') as out:
            out.writelines(text + ending for number in sorted(message) for text in message[number])
        with open('%s/%02d%s.said' % (sys.argv[1], i, name), 'w') as out:
            out.write('1 %s\n' % says)
    said.add(int(says.split()[0]))
assert said == {0, *range(1, 11), *range(12, 16), 22}, 'not every number of the answers has an example'
PYTHON

for input in "$work"/*.answer; do
    said=${input%.answer}.said
    bin/run-x86 "$answers" <"$input" >"$work/first"
    "$work/list" --mt509 --lister <"$input" >"$work/second"
    cmp "$work/first" "$work/second" && sed 1d "$work/first" | cut -d' ' -f1-3 | diff "$said" - || {
        echo "the sheet < and a list of answers > differ on this message:"
        cat "$input"
        exit 1
    }
done
echo "ok, $(ls "$work"/*.in | wc -l) examples of the sheet get what it says, and $(($(ls "$work"/*.answer | wc -l) / 2)) of the answers, with LF and with CR LF"
