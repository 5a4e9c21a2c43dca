#!/bin/sh
# Every source, definition and proof is in the kit's layout: laid out anew in a copy, none changes.
set -eu
cd "$(dirname "$0")/.."
work=$(mktemp -d)
trap 'rm -rf "$work"' EXIT

mkdir "$work/copy"
tar cf - --exclude=out crates crates.txt | tar xf - -C "$work/copy"
for crate in "$work"/copy/crates/*/; do
    (cd "$crate" && rt fmt) >"$work/log" 2>&1 </dev/null || {
        tail "$work/log"
        exit 1
    }
done
diff -r --exclude=out --exclude=must-fail --exclude=must-fail-too crates "$work/copy/crates" || {
    echo 'a file < is not in the layout >'
    exit 1
}
echo 'ok, all files are in the layout'
