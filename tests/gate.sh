#!/bin/bash
# What `make test` and `.ci/run` run. The last line is "N passed, M failed".
#
#   tests/gate.sh            proves what users run, and meanwhile builds the rest unproved
#   tests/gate.sh proved     takes what `rt ci` has proved and built
#   tests/gate.sh covered    builds all unproved, and says which blocks no test enters
#   tests/gate.sh all        proves all from nothing, counts the instructions of calls, does the last two, and tries every edit
missing=0
for it in rt python3 cc; do
    command -v "$it" >/dev/null || { echo "$it is not on the path"; missing=1; }
done
[ "$missing" -eq 0 ] || { echo "0 passed, 1 failed"; exit 1; }
exec python3 "$(dirname "$0")/gate.py" "$@"
