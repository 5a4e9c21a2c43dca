#!/bin/sh
# Usage: examples/answers.sh [BATCH]
# Builds answers.c with the static library and runs it, on x86-64 and on Arm: prints a row for each message of BATCH (without:
# examples/answers.batch), which are MT509, the answers that come back.
# The library is proved and made first where it is not up to date, which takes some minutes.
set -eu
root=$(cd "$(dirname "$0")/.." && pwd -P)
program=$root/target/answers

mkdir -p "$root/target"
library=$("$root/bin/archive")
"$root/bin/cc-x86" -o "$program" -std=c11 -Wall -Wextra -O2 -I"$root/include" "$root/examples/answers.c" "$library"
"$root/bin/run-x86" "$program" <"${1:-$root/examples/answers.batch}"
