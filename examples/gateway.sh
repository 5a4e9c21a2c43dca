#!/bin/sh
# Usage: examples/gateway.sh [BATCH [PLAIN]]
# Builds gateway.c with the static library and runs it, on x86-64 and on Arm: prints what each message of BATCH is (without:
# examples/day.batch), and writes the plain forms of those accepted to PLAIN (without: target/day.plain).
# The library is proved and made first where it is not up to date, which takes some minutes.
set -eu
root=$(cd "$(dirname "$0")/.." && pwd -P)
program=$root/target/gateway

mkdir -p "$root/target"
library=$("$root/bin/archive")
"$root/bin/cc-x86" -o "$program" -std=c11 -Wall -Wextra -O2 -I"$root/include" "$root/examples/gateway.c" "$library"
"$root/bin/run-x86" "$program" "${1:-$root/examples/day.batch}" "${2:-$root/target/day.plain}"
