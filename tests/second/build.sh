#!/bin/sh
# Usage: tests/second/build.sh PROGRAM [FLAG..]
# Builds differ: the second program, the generated cases and the static library, which is made first where it is not up to date.
set -eu
cd "$(dirname "$0")/../.."
program=$1
shift
library=$(bin/archive)
bin/cc-x86 -o "$program" -std=c11 -Wall -Wextra -Werror -O2 "$@" -Iinclude tests/second/differ.c tests/second/cases.c \
    tests/second/bytes.c tests/second/second.c "$library"
