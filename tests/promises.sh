#!/bin/sh
# Every public function promises its answer, and none asks anything of its caller but those that docs/PROMISES.md lists.
set -eu
root=$(cd "$(dirname "$0")/.." && pwd -P)
python3 "$root/tests/promises.py" --self-test
python3 "$root/tests/promises.py" "$root"
