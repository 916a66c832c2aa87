#!/bin/bash
# Runs halfmap on standard input: the proved program if it is up to date, and otherwise one that is built with nothing proved.
set -u
cd "$(dirname "$0")/.." || exit 1
proved=crates/halfmap/out/halfmap
unproved=out/unproved/halfmap

# fits PROGRAM STORED TOOL: whether the program is there, and neither its sources nor the tool have changed since the file
# STORED was. The time of the change itself says that, since an older file that takes a newer one's place keeps its own time.
fits() {
    local made_from=(crates.txt crates/{half_store,halfbrown,halfmap}/{src,specs,proofs} "${@:3}")
    [ -x "$1" ] && [ -e "$2" ] && [ -z "$(find "${made_from[@]}" -cnewer "$2" -print -quit 2>&1)" ]
}

fails() { echo "$1" >&2; exit 1; }

# rt stores the stamp only if the sources did not change while it proved them.
if fits $proved $proved.stamp "$(realpath "$(command -v rt)")"; then
    program=$proved
elif program=$unproved && fits $unproved $unproved tests/build_unproved.sh; then
    echo "This halfmap is not proved; make prove proves it." >&2
else
    echo "No proved halfmap is up to date, so this one is built without proofs, in about 20 seconds;" \
        "make prove proves it, in 5 to 9 minutes on 4 processors." >&2
    tests/build_unproved.sh halfmap $unproved
    case $? in
        0) ;;
        2) echo "So halfmap is proved first." >&2; program=$proved; tests/prove.sh || fails "halfmap is not proved" ;;
        *) fails "halfmap does not compile" ;;
    esac
fi
[ ! -t 0 ] || echo "i K V, g K, r K or f; end with ^D" >&2
# Only cat says that the reader of the answers went away, as head does: SIGPIPE ends it, and that is no failure.
$program | cat
statuses=("${PIPESTATUS[@]}")
status=$((statuses[0] ? statuses[0] : statuses[1]))
[ "${statuses[1]}" -eq 141 ] || [ "$status" -eq 0 ] ||
    fails "halfmap ended with status $status (1: its input or output was closed, the disk was full, or it got no memory)"
