#!/bin/sh
# A second program, written in C without sight of crates/, holds against what document 01 and the pages of requests A1 and A3 print;
# and it and the static library, called by a C program through include/mt515.h, include/pool.h and include/mt509.h, answer alike on
# generated messages, records and batches of the MT515 in both profiles and of the MT509, and on the MT509 of document 003.
# Usage: tests/second.sh [SEED]
set -eu
cd "$(dirname "$0")/.."
work=$(mktemp -d)
trap 'rm -rf "$work"' EXIT
seed=${1:-11}

tests/second/check.sh

tests/second/build.sh "$work/differ"
mkdir "$work/messages"
python3 tests/second/make.py "$seed" 2700 "$work/messages"
python3 tests/second/pool.py >"$work/messages/pool.txt"
python3 tests/second/mt509.py >"$work/messages/mt509.txt"
bin/run-x86 "$work/differ" -f "$work"/messages/* tests/samples/answers-printed.txt tests/samples/answers-mended.txt
# every fourth case is a message of the pool and an MT509 too, so 50,000 of each
bin/run-x86 "$work/differ" "$seed" 200000

# and fewer with the sanitizers, where the compiler has them; no generated case takes memory from the heap, so none can leak
if tests/second/build.sh "$work/differ-checked" -g -fsanitize=address,undefined -fno-sanitize-recover=all 2>"$work/said"; then
    ASAN_OPTIONS=detect_leaks=0 bin/run-x86 "$work/differ-checked" "$((seed + 1))" 8000
else
    echo 'no run with the sanitizers: the compiler has none for x86-64'
fi
echo 'ok, the second program and the library answer alike'
