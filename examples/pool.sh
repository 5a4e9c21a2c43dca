#!/bin/sh
# Usage: examples/pool.sh [BATCH]
# Builds pool.c with the static library and runs it, on x86-64 and on Arm: prints a row for each message of BATCH (without:
# examples/pool.batch), which are messages of the pool netting members.
# The library is proved and made first where it is not up to date, which takes some minutes.
set -eu
root=$(cd "$(dirname "$0")/.." && pwd -P)
program=$root/target/pool

mkdir -p "$root/target"
library=$("$root/bin/archive")
"$root/bin/cc-x86" -o "$program" -std=c11 -Wall -Wextra -O2 -I"$root/include" "$root/examples/pool.c" "$library"
"$root/bin/run-x86" "$program" <"${1:-$root/examples/pool.batch}"
